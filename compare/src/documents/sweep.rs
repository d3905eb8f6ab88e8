//! Every order of a few pieces of markup, bare, in an element and in fields: the same texts in every run.

const PIECES: [&[u8]; 14] =
    [b"<a", b"<", b"/", b">", b" ", b"a", b"='", b"'", b"&", b"lt;", b"]]>", b"]", b"<![CDATA[", b"\xC3"];
const MOST: u32 = 4;

const AROUND: [(&[u8], &[u8]); 4] = [
    (b"", b""),
    (b"<a>", b"</a>"),
    (b"<Document><PmtRtr><GrpHdr><MsgId>", b"</MsgId></GrpHdr></PmtRtr></Document>"),
    // where no order of them is a number
    (b"<Document><PmtRtr><GrpHdr><NbOfTxs>", b"</NbOfTxs></GrpHdr></PmtRtr></Document>"),
];

pub fn texts() -> impl Iterator<Item = Vec<u8>> {
    (0..=MOST)
        .flat_map(|length| (0..PIECES.len().pow(length)).map(move |order| pieces(order, length)))
        .flat_map(|pieces| AROUND.map(|(before, behind)| [before, &pieces, behind].concat()))
}

/// The order as a number whose digits name the pieces.
fn pieces(mut order: usize, length: u32) -> Vec<u8> {
    let mut pieces = Vec::new();
    for _ in 0..length {
        pieces.extend(PIECES[order % PIECES.len()]);
        order /= PIECES.len();
    }
    pieces
}
