//! The reader of documents on texts whose answers were worked out by hand from the page.
//! In a text `¦` is no part of it: it shows the place that has to be answered.

mod support;

use compare::reader::{read, Answer};
use support::{number, text};

const PAYMENTS: &str = "<Document><FIToFICstmrCdtTrf><GrpHdr><MsgId>B1</MsgId><NbOfTxS>2</NbOfTxS>\
    <TtlIntrBkSttlmAmt Ccy=\"EUR\">3.01</TtlIntrBkSttlmAmt><IntrBkSttlmDt>2026-06-15</IntrBkSttlmDt>\
    <SttlmInf><SttlmMtd>CLRG</SttlmMtd><ClrSys><Prtry>EKS</Prtry></ClrSys></SttlmInf>\
    <InstgAgt><FinInstnId><BICFI>AAAALV22</BICFI></FinInstnId></InstgAgt></GrpHdr>\
    <CdtTrfTxInf><PmtId><TxId>T1</TxId></PmtId><IntrBkSttlmAmt Ccy=\"EUR\">1</IntrBkSttlmAmt>\
    <CdtrAgt><FinInstnId><BICFI>BBBBLV22</BICFI></FinInstnId></CdtrAgt></CdtTrfTxInf>\
    <CdtTrfTxInf><PmtId><TxId>T2</TxId></PmtId><IntrBkSttlmAmt Ccy=\"EUR\">2.01</IntrBkSttlmAmt>\
    <CdtrAgt><FinInstnId><BICFI>BBBBLV22RIX</BICFI></FinInstnId></CdtrAgt></CdtTrfTxInf>\
    </FIToFICstmrCdtTrf></Document>";

const RETURNS: &str = "<Document><PmtRtr><GrpHdr><MsgId>R1</MsgId><NbOfTxs>1</NbOfTxs>\
    <TtlRtrdIntrBkSttlmAmt Ccy=\"EUR\">5</TtlRtrdIntrBkSttlmAmt><IntrBkSttlmDt>2026-06-15</IntrBkSttlmDt>\
    <SttlmInf><SttlmMtd>INDA</SttlmMtd><ClrSys><Prtry>EKS</Prtry></ClrSys></SttlmInf>\
    <InstgAgt><FinInstnId><BICFI>AAAALV22</BICFI></FinInstnId></InstgAgt><InstdAgt/></GrpHdr>\
    <TxInf><RtrId>T3</RtrId><OrgnlGrpInf><OrgnlMsgNmId>pacs.008.001.08</OrgnlMsgNmId></OrgnlGrpInf>\
    <OrgnlIntrBkSttlmAmt Ccy=\"EUR\">5.5</OrgnlIntrBkSttlmAmt>\
    <RtrdIntrBkSttlmAmt Ccy=\"EUR\">5</RtrdIntrBkSttlmAmt>\
    <RtrRsnInf><Rsn><Cd>AC01</Cd></Rsn></RtrRsnInf>\
    <OrgnlTxRef><CdtrAgt><FinInstnId><BICFI>AAAALV22XXX</BICFI></FinInstnId></CdtrAgt></OrgnlTxRef>\
    </TxInf></PmtRtr></Document>";

fn answer(text: &[u8]) -> (u32, u64) {
    let answer = read(text, usize::MAX);
    if answer.number != 0 {
        assert_eq!((answer.length, answer.sheet.len()), (0, 0));
    }
    (answer.number, answer.at)
}

/// The number answered for a text, and at the place that the bar shows.
fn stops(number: u32, marked: &str) {
    let at = marked.find('¦').expect("a bar shows the place");
    let text = marked.replacen('¦', "", 1);
    assert_eq!(answer(text.as_bytes()), (number, at as u64), "{marked}");
}

fn wrong(marked: &str) {
    stops(21, marked);
}

/// In the payments, one text put in place of another.
fn edited(old: &str, new: &str) -> String {
    assert_eq!(PAYMENTS.matches(old).count(), 1, "{old}");
    PAYMENTS.replacen(old, new, 1)
}

/// An identifier written so, and what the sheet then holds of it.
fn identifier(written: &str) -> Vec<u8> {
    let text = edited("<MsgId>B1</MsgId>", &format!("<MsgId>{written}</MsgId>"));
    let Answer { number, sheet, .. } = read(text.as_bytes(), usize::MAX);
    assert_eq!(number, 0, "{written}");
    sheet[5..40].to_vec()
}

fn payments_header() -> Vec<u8> {
    let numbers = [number(2, 8), number(301, 8), number(20260615, 4)].concat();
    [vec![1], text("B1", 35), text("AAAALV22", 8), numbers, vec![3]].concat()
}

fn payments_messages() -> Vec<u8> {
    let message = |identifier, receiver, cents| {
        let amounts = [number(cents, 8), number(0, 8)].concat();
        [text(identifier, 35), text(receiver, 11), amounts, text("", 19)].concat()
    };
    [number(2, 4), message("T1", "BBBBLV22XXX", 100), message("T2", "BBBBLV22RIX", 201)].concat()
}

#[test]
fn both_kinds_byte_by_byte() {
    let header = [vec![3], text("R1", 35), text("AAAALV22", 8), number(1, 8), number(500, 8)].concat();
    let header = [header, number(20260615, 4), vec![6]].concat();
    let message = [text("T3", 35), text("AAAALV22XXX", 11), number(500, 8), number(550, 8)].concat();
    let message = [number(1, 4), message, text("AC01", 4), text("pacs.008.001.08", 15)].concat();
    let sheet = [number(2, 4), payments_header(), header, payments_messages(), message].concat();

    let both = format!("{PAYMENTS}{RETURNS}");
    let length = 4 + 2 * 65 + 4 + 2 * 81 + 4 + 81;
    let whole = Answer { number: 0, length: length as u64, at: 0, sheet };
    assert_eq!(read(both.as_bytes(), length), whole);
    assert_eq!(read(both.as_bytes(), length + 1), whole);
    let short = Answer { number: 24, length: 0, at: 0, sheet: Vec::new() };
    assert_eq!(read(both.as_bytes(), length - 1), short);
    assert_eq!(read(both.as_bytes(), 0), short);
}

#[test]
fn what_may_stand_before_and_between_documents() {
    for prolog in [
        "\u{FEFF}",
        " \t\r\n",
        "\u{FEFF}\n",
        "<?xml version='1.0'?>",
        "\u{FEFF}<?xml version=\"1.0\" encoding=\"UTF-8\"?>\n",
        "<?xml\tversion = '1.25'\r\nencoding= \"utf-8\" standalone ='yes' ?> ",
        "<?xml version=\"1.0\" standalone=\"no\"?>",
        "<?xml version='1.0' encoding='uTf-8'?>",
    ] {
        assert_eq!(answer(format!("{prolog}{PAYMENTS}").as_bytes()), (0, 0), "{prolog}");
        assert_eq!(answer(format!("{prolog}{PAYMENTS}\n {RETURNS}\n").as_bytes()), (0, 0), "{prolog}");
    }
    wrong("¦");
    wrong(" \n ¦");
    wrong("¦x");
    wrong("\u{FEFF}¦\u{FEFF}<Document/>");
    wrong(" <¦?xml version='1.0'?><Document/>");
    wrong("<Document/> ¦x");
    wrong("<Document/><¦?xml version='1.0'?>");
    wrong("<¦!-- --><Document/>");
    wrong("<Document/>¦&#32;");
    wrong("<Document/><¦![CDATA[]]>");
    wrong("<Document/><¦/Document>");
    wrong("<Document/><¦");
    // a part of the mark is none
    for bytes in [
        &b"\xEF"[..],
        b"\xEF\xBB",
        b"\xEF\xBB<Document/>",
        b"\xEF\xBB\xBE<Document/>",
        b"\xBB\xBF<Document/>",
    ] {
        assert_eq!(answer(bytes), (21, 0), "{bytes:?}");
    }
}

#[test]
fn declarations_that_are_none() {
    // less than its word begins none
    wrong("<¦?pi?><Document/>");
    wrong("<¦?XML version='1.0'?><Document/>");
    wrong("<¦?xm");
    wrong("\u{FEFF}<¦?xm l version='1.0'?><Document/>");
    wrong("<?xml¦");
    wrong("<?xml¦-stylesheet?><Document/>");
    wrong("<?xml¦?><Document/>");
    wrong("<?xml¦version='1.0'?>");
    wrong("<?xml ¦encoding='UTF-8'?>");
    wrong("<?xml versi¦jon='1.0'?>");
    wrong("<?xml version ¦'1.0'?>");
    wrong("<?xml version=¦1.0?>");
    wrong("<?xml version='¦2.0'?>");
    wrong("<?xml version='¦1.'?>");
    wrong("<?xml version='¦1.x'?>");
    wrong("<?xml version='¦1.0");
    wrong("<?xml version='¦");
    wrong("<?xml version='¦1.0\"?><Document/>");
    wrong("<?xml version='¦1.0\" encoding='UTF-8'?><Document/>");
    wrong("<?xml version='1.0' encoding=\"¦UTF-8");
    wrong("<?xml version='1.0' encoding='¦UTF-8 '?>");
    wrong("<?xml version='1.0' encoding='¦UTF8'?>");
    wrong("<?xml version='1.0' enc¦?>");
    wrong("<?xml version='1.0' standalone='¦yes\"?><Document/>");
    wrong("<?xml version='1.0' standalone='¦Yes'?>");
    wrong("<?xml version='1.0'¦encoding='UTF-8'?>");
    wrong("<?xml version='1.0' encoding='¦UTF-16'?>");
    wrong("<?xml version='1.0' standalone='¦maybe'?>");
    wrong("<?xml version='1.0' standalone='no' ¦encoding='UTF-8'?>");
    wrong("<?xml version='1.0' ¦version='1.0'?>");
    wrong("<?xml version='1.0' ?¦ >");
}

#[test]
fn tags() {
    wrong("<¦");
    wrong("<¦ Document/>");
    wrong("<¦1/>");
    wrong("<D¦\u{C4}/>");
    wrong("<Document¦");
    wrong("<Document¦=>");
    wrong("<Document/¦ >");
    wrong("<Document/¦");
    wrong("<Document a=''/¦/>");
    wrong("<Document a¦>");
    wrong("<Document a=¦b>");
    wrong("<Document a='1'¦b='2'/>");
    wrong("<Document a='1' ¦5='2'/>");
    wrong("<Document a='¦<'/>");
    wrong("<Document a='1' b='2' ¦a='1'/>");
    wrong("<Document a='1' ¦a");
    wrong("<Document a='1' ¦a\u{1}");
    wrong("<Document a='1' ¦a='&");
    wrong("<Document aa='1' a¦");
    wrong("<Document a='¦\u{1}'/>");
    wrong("<Document a='1¦");
    wrong("<Document a='¦&b;'/>");
    wrong("<Document></¦document>");
    wrong("<Document></Doc¦>");
    wrong("<Document></Document¦s>");
    wrong("<Document></Document ¦s>");
    wrong("<Document></¦ Document>");
    wrong("<Document><a></¦Document>");
    wrong("<Document>¦");
    wrong("<Document><¦?a?></Document>");
    wrong("<Document><¦!-- --></Document>");
    wrong("<Document><¦![CDATA></Document>");
    wrong("<Document><¦![cdata[]]></Document>");
    wrong("<Document><¦![CDATA");
    wrong("<Document><¦!");
    wrong("<Document><¦");
    wrong("<Document><![CDATA[¦");
    wrong("<Document><![CDATA[ ]]¦");
    wrong("<Document></¦");
    let spaced = edited("<MsgId>", "<MsgId\n a=\">\"\tb = '\"&lt;]]>' >").replace("</MsgId>", "</MsgId\r\n>");
    assert_eq!(read(spaced.as_bytes(), usize::MAX), read(PAYMENTS.as_bytes(), usize::MAX));
}

#[test]
fn characters_and_references() {
    wrong("<Document>¦\u{0}");
    wrong("<Document>¦\u{1F}");
    wrong("<Document>¦\u{FFFE}");
    wrong("<Document>¦\u{FFFF}");
    wrong("<Document><![CDATA[¦\u{8}]]>");
    wrong("<Document>\u{7F}\u{85}\u{D7FF}\u{E000}\u{FFFD}\u{10000}\u{10FFFF}\t\r\n¦");
    wrong("<Document>¦]]>");
    wrong("<Document>]¦]]>");
    wrong("<Document>]]<![CDATA[]]]]>]&#93;>]] >¦");
    for bytes in [
        &b"\x80"[..],
        b"\xC0\x80",
        b"\xC1\xBF",
        b"\xE0\x9F\xBF",
        b"\xED\xA0\x80",
        b"\xF0\x8F\xBF\xBF",
        b"\xF4\x90\x80\x80",
        b"\xF5\x80\x80\x80",
        b"\xE2\x82",
        b"\xE2\x82A",
        b"\xFF",
    ] {
        assert_eq!(answer(&[b"<Document>A", bytes].concat()), (21, 11), "{bytes:?}");
        assert_eq!(answer(&[b"<Document>A", bytes, b"B"].concat()), (21, 11), "{bytes:?}");
    }
    for reference in [
        "&",
        "&a;",
        "&amp",
        "&AMP;",
        "& ",
        "&#;",
        "&#x;",
        "&#65",
        "&#x41",
        "&#X41;",
        "&#xG;",
        "&#0;",
        "&#31;",
        "&#xD800;",
        "&#xDFFF;",
        "&#xFFFE;",
        "&#65535;",
        "&#x110000;",
        "&#4294967361;",
        "&#-5;",
        "&# 65;",
    ] {
        wrong(&format!("<Document>A¦{reference}"));
        wrong(&format!("<Document>A¦{reference}</Document>"));
    }
    let good = "&lt;&gt;&amp;&apos;&quot;&#65;&#x42;&#0067;&#x000044;&#xe4;&#1114111;";
    let text = "<>&'\"ABCD\u{E4}\u{10FFFF}";
    assert_eq!(identifier(good), support::text(text, 35));
    assert_eq!(identifier("<![CDATA[<&]]>&#9;<![CDATA[]]]]><![CDATA[>]]>"), support::text("<&\t]]>", 35));
}

#[test]
fn ends_of_line() {
    assert_eq!(identifier("A\r\nB\rC\nD"), text("A\nB\nC\nD", 35));
    assert_eq!(identifier("A\r\r\nB\n\rC"), text("A\n\nB\n\nC", 35));
    assert_eq!(identifier("A&#13;\nB&#xD;&#10;C"), text("A\r\nB\r\nC", 35));
    assert_eq!(identifier("A\r&#10;B<![CDATA[\r\n\r]]>\nC"), text("A\n\nB\n\n\nC", 35));
}

#[test]
fn texts_of_fields() {
    let longest = "A".repeat(35);
    assert_eq!(identifier(&longest), longest.as_bytes());
    assert_eq!(identifier(""), [b' '; 35]);
    assert_eq!(identifier(" A "), text(" A", 35));
    // 17 letters of two bytes are 34 bytes, and 18 are one too many
    assert_eq!(identifier(&"&#xE4;".repeat(17)), text(&"\u{E4}".repeat(17), 35));
    wrong(&edited("B1</MsgId>", &format!("{}¦</MsgId>", "&#xE4;".repeat(18))));
    wrong(&edited("B1</MsgId>", &format!("A{longest}¦</MsgId>")));
    wrong(&edited("B1</MsgId>", &format!("A{longest}¦</wrong>")));
    wrong(&edited("AAAALV22</BICFI>", "AAAALV22X¦</BICFI>"));
    wrong(&edited("BBBBLV22RIX</BICFI>", "BBBBLV22RIX ¦</BICFI>"));
    wrong(&edited("B1</MsgId>", "B1<¦a/></MsgId>"));
    wrong(&edited("<NbOfTxS>2</NbOfTxS>", "<NbOfTxS¦/>"));
    wrong(&edited("<NbOfTxS>2</NbOfTxS>", "<NbOfTxS ¦/>"));
    // not a whole tag, so there is no text yet
    wrong(&edited("<NbOfTxS>2</NbOfTxS>", "<NbOfTxS/¦ >"));
    wrong(&edited("<NbOfTxS>2</NbOfTxS>", "<NbOfTxS>¦</NbOfTxS>"));
    for form in ["1234567890123456", "+1", "-1", "1 ", " 1", "1.", "0x1", "\u{661}"] {
        wrong(&edited("2</NbOfTxS>", &format!("{form}¦</NbOfTxS>")));
    }
    for form in
        ["2026-6-15", "20260615", "2026-06-1", "2026-06-155", "12026-06-15", "2026/06/15", "-026-06-15"]
    {
        wrong(&edited("2026-06-15<", &format!("{form}¦<")));
    }
    let receiver = |written: &str| {
        let text = edited("BBBBLV22RIX", written);
        read(text.as_bytes(), usize::MAX).sheet[4 + 65 + 4 + 81 + 35..][..11].to_vec()
    };
    assert_eq!(receiver("BBBBLV2&#50;"), b"BBBBLV22XXX");
    assert_eq!(receiver("BBBBLV22 "), b"BBBBLV22   ");
    assert_eq!(receiver("BBBBLV2"), b"BBBBLV2    ");
    assert_eq!(receiver(""), b"           ");
    // eight bytes, though six letters
    assert_eq!(receiver("BBBB\u{C4}\u{C4}"), "BBBB\u{C4}\u{C4}XXX".as_bytes());
}

/// A field's text ends at the first `<` that begins no section, and is looked at before what this begins.
#[test]
fn ends_of_texts() {
    let field = |marked: &str| edited("2</NbOfTxS>", marked);
    for begun in
        ["<a/></NbOfTxS>", "</wrong>", "<!-- --></NbOfTxS>", "<?a?></NbOfTxS>", "<![CDATA 2]]></NbOfTxS>"]
    {
        wrong(&field(&format!("x¦{begun}")));
        wrong(&field(&format!("¦{begun}")));
        wrong(&field(&format!("<![CDATA[2]]> ¦{begun}")));
    }
    for begun in
        ["a/></NbOfTxS>", "!-- --></NbOfTxS>", "?a?></NbOfTxS>", "![CDATA 2]]></NbOfTxS>", " ", "<", "\u{1}"]
    {
        wrong(&field(&format!("2<¦{begun}")));
        wrong(&field(&format!("<![CDATA[2]]><¦{begun}")));
    }
    wrong(&field("2</¦wrong>"));
    // what is met before the text has ended
    wrong(&field("x¦]]></NbOfTxS>"));
    wrong(&field("x¦&y;</NbOfTxS>"));
    wrong(&field("x<![CDATA[¦\u{1}"));

    // where all the text ends
    let before = &PAYMENTS[..PAYMENTS.find("2</NbOfTxS>").expect("a number is there")];
    for cut in [
        "¦",
        "x¦",
        "2¦",
        "¦<",
        "x¦<",
        "2<¦",
        "x¦<!",
        "2<¦!",
        "x¦<![CDATA",
        "2<¦![CDATA",
        "x<![CDATA[¦",
        "x¦</",
        "2</¦",
    ] {
        wrong(&format!("{before}{cut}"));
    }
    let before = before.strip_suffix('>').expect("its tag ends");
    for cut in ["¦", " ¦", "/¦"] {
        wrong(&format!("{before}{cut}"));
    }
}

#[test]
fn numbers_dates_and_marks() {
    let header = |old: &str, new: &str| read(edited(old, new).as_bytes(), usize::MAX).sheet[4..69].to_vec();
    assert_eq!(header("2</NbOfTxS>", "999999999999999</NbOfTxS>")[44..52], number(999_999_999_999_999, 8));
    assert_eq!(header("2</NbOfTxS>", "000000000000000</NbOfTxS>")[44..52], number(0, 8));
    assert_eq!(header("2026-06-15", "9999-99-99")[60..64], number(99_999_999, 4));
    assert_eq!(header("2026-06-15", "0000-00-00")[60..64], number(0, 4));
    assert_eq!(header("CLRG", "CLRG ")[64], 2);
    assert_eq!(header("CLRG", "&#67;LRG")[64], 3);
    assert_eq!(header("EKS", "")[64], 1);
    assert_eq!(header("EKS", "EKSEKS and any length of text that somebody may think of")[64], 1);
    assert_eq!(header("</GrpHdr>", "<InstdAgt><BICFI>whatever is here</BICFI></InstdAgt></GrpHdr>")[64], 7);
    assert_eq!(header("<GrpHdr>", "<GrpHdr><InstdAgt/><InstdAgt>A</InstdAgt><InstdAgt/>")[64], 7);
}

#[test]
fn amounts() {
    let sum = |written: &str| {
        let text = edited("3.01", written);
        let answer = read(text.as_bytes(), usize::MAX);
        assert_eq!(answer.number, 0, "{written}");
        answer.sheet[56..64].to_vec()
    };
    for (written, cents) in [
        ("0", 0),
        ("7", 700),
        ("7.", 700),
        (".7", 70),
        ("7.0", 700),
        ("7.05", 705),
        ("007.5", 750),
        ("0000000000000000.01", 1),
        ("9999999999999999.99", 999_999_999_999_999_999),
        ("99999999999999999.9", 9_999_999_999_999_999_990),
        ("184467440737095516", 18_446_744_073_709_551_600),
        ("184467440737095516.", 18_446_744_073_709_551_600),
    ] {
        assert_eq!(sum(written), number(cents, 8), "{written}");
    }
    for written in [
        "",
        ".",
        "-1",
        "+1",
        "1,00",
        "1.234",
        "1.2.3",
        "..1",
        "1 ",
        "1e2",
        "0000000000000000000",
        "00000000000000000.01",
        "184467440737095517",
        "999999999999999999",
        "999999999999999999.",
    ] {
        wrong(&edited("3.01</", &format!("{written}¦</")));
    }
}

#[test]
fn currencies() {
    let tag = |marked: &str| edited("<TtlIntrBkSttlmAmt Ccy=\"EUR\">", marked);
    for good in ["Ccy='&#69;U&#x52;'", "a='' Ccy = 'EUR' b=\"\"", "\nCcy='EUR'\n"] {
        assert_eq!(answer(tag(&format!("<TtlIntrBkSttlmAmt {good}>")).as_bytes()), (0, 0), "{good}");
    }
    wrong(&tag("<TtlIntrBkSttlmAmt¦>"));
    wrong(&tag("<TtlIntrBkSttlmAmt Ccy='USD'¦>"));
    wrong(&tag("<TtlIntrBkSttlmAmt Ccy='eur' ¦>"));
    wrong(&tag("<TtlIntrBkSttlmAmt ccy='EUR'¦>"));
    wrong(&tag("<TtlIntrBkSttlmAmt Ccy=''¦/>"));
    wrong(&tag("<TtlIntrBkSttlmAmt Ccy='EUR '¦>"));
    wrong(&tag("<TtlIntrBkSttlmAmt Ccy='EUR'¦/>"));
    wrong(&tag("<TtlIntrBkSttlmAmt Ccy='USD' ¦5>"));
    wrong(&tag("<TtlIntrBkSttlmAmt Ccy='USD' ¦>&"));
    wrong(&tag("<TtlIntrBkSttlmAmt Ccy='EUR'\n¦/>"));
    // not a whole tag, so its currency is not looked at yet
    wrong(&tag("<TtlIntrBkSttlmAmt Ccy='USD'/¦ >"));
    wrong(&tag("<TtlIntrBkSttlmAmt/¦x"));
}

/// So many elements, one in the other.
fn nested(levels: usize) -> String {
    "<a>".repeat(levels) + &"</a>".repeat(levels)
}

#[test]
fn levels() {
    // Document is the first level, the body the second
    let at_level =
        |levels: usize| edited("</FIToFICstmrCdtTrf>", &(nested(levels - 2) + "</FIToFICstmrCdtTrf>"));
    assert_eq!(answer(at_level(32).as_bytes()), (0, 0));
    let first = PAYMENTS.find("</FIToFICstmrCdtTrf>").expect("the body ends");
    assert_eq!(answer(at_level(33).as_bytes()), (22, (first + 30 * 3) as u64));
    stops(22, &format!("{}¦<a", "<a>".repeat(32)));
    stops(22, &format!("{}<b/>&lt;<a>¦<b/>&", "<a>".repeat(31)));
    wrong(&format!("{}<¦1", "<a>".repeat(32)));
    wrong(&format!("{}<¦", "<a>".repeat(32)));
    wrong(&format!("{}¦&</a><a>", "<a>".repeat(32)));
    wrong(&format!("{}<¦!", "<a>".repeat(32)));
    stops(22, &format!("<Document/>{}¦<_", "<a>".repeat(32)));
}

#[test]
fn what_is_missing_or_stands_twice() {
    let missing = |element: &str, holder: &str| {
        let text = edited(element, "");
        assert_eq!(
            answer(text.as_bytes()),
            (23, text.find(holder).expect("it is there") as u64),
            "{element}"
        );
        let text = edited(element, &element.repeat(2));
        assert_eq!(
            answer(text.as_bytes()),
            (23, text.find(holder).expect("it is there") as u64),
            "{element}"
        );
    };
    missing("<MsgId>B1</MsgId>", "<GrpHdr");
    missing("<NbOfTxS>2</NbOfTxS>", "<GrpHdr");
    missing("<IntrBkSttlmDt>2026-06-15</IntrBkSttlmDt>", "<GrpHdr");
    missing("<SttlmMtd>CLRG</SttlmMtd>", "<SttlmInf");
    missing("<ClrSys><Prtry>EKS</Prtry></ClrSys>", "<SttlmInf");
    missing("<Prtry>EKS</Prtry>", "<ClrSys");
    missing("<BICFI>AAAALV22</BICFI>", "<FinInstnId");
    missing("<TxId>T1</TxId>", "<PmtId");
    missing("<PmtId><TxId>T1</TxId></PmtId>", "<CdtTrfTxInf");

    stops(23, &edited("<GrpHdr>", "<NbOfTxs/>¦<GrpHdr><NbOfTxs>2</NbOfTxs>"));
    stops(23, "¦<Document/>");
    stops(23, "¦<Documents/>");
    stops(23, "\n¦<Document></Document>\n");
    stops(23, "<?xml version='1.0'?> ¦<Document><other/></Document>");
    stops(23, "<Document>¦<PmtRtr/></Document>");
    stops(23, "¦<Document><PmtRtr/><FIToFICstmrCdtTrf/></Document>");
    stops(23, &format!("{PAYMENTS}\n¦<Other/>{RETURNS}"));
    stops(23, &format!("¦<Other>{PAYMENTS}</Other>"));
    // the holder comes first, though what it holds lacks something too
    stops(23, "<Document>¦<PmtRtr><GrpHdr/><GrpHdr/></PmtRtr></Document>");
    // the form of a text matters more, also of one too many
    wrong(&edited("<NbOfTxS>", "<NbOfTxs>x¦</NbOfTxs><NbOfTxS>"));
    wrong(&edited("</Document>", "<PmtRtr><GrpHdr><NbOfTxs>¦</NbOfTxs></GrpHdr></PmtRtr></Document>"));
    // and that of a later document
    wrong(&format!("<Document/>{PAYMENTS}<a>¦"));
}

#[test]
fn a_name_counts_at_its_path_alone() {
    let same = |old: &str, new: &str| {
        let text = edited(old, new);
        assert_eq!(read(text.as_bytes(), usize::MAX), read(PAYMENTS.as_bytes(), usize::MAX), "{new}");
    };
    same("<GrpHdr>", "<MsgId>too long for any identifier of a bulk, were it one</MsgId><GrpHdr>");
    same("<PmtId><TxId>T1", "<PmtId><MsgId><TxId/></MsgId><TxId>T1");
    same("<ClrSys>", "<Prtry/><Prtry/><ClrSys><Cd>EKS</Cd>");
    same("</Document>", "<GrpHdr/><CdtTrfTxInf/></Document>");
    same("</FIToFICstmrCdtTrf>", "<TxInf/><IntrBkSttlmAmt Ccy='USD'>x</IntrBkSttlmAmt></FIToFICstmrCdtTrf>");
    same("<CdtTrfTxInf><PmtId><TxId>T2", "text &amp; more<CdtTrfTxInf><PmtId><TxId>T2");
    let none = "<CdtTrfTxInf><PmtId>";
    let from = PAYMENTS.find(none).expect("messages begin");
    let text = format!("{}</FIToFICstmrCdtTrf></Document>", &PAYMENTS[..from]);
    let sheet = [number(1, 4), payments_header(), number(0, 4)].concat();
    assert_eq!(read(text.as_bytes(), 73).sheet, sheet);
}
