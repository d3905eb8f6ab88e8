/*
 * Writes one document of so many payments to standard output:  documents PAYMENTS
 *
 * The payments are filled as real ones are: every one with names, structured addresses, accounts and a remittance
 * text, some with parties behind the parties, identifications or a creditor's reference; letters beyond ASCII and
 * references stand where people's names and texts have them.
 */
#include <stdint.h>
#include <stdio.h>
#include <stdlib.h>

static const char *const STREETS[] = {"Brīvības gatve", "Krišjāņa Valdemāra iela", "Lielā iela", "Rīgas iela", "Main Street"};
static const char *const TOWNS[] = {"Rīga", "Liepāja", "Daugavpils", "Valmiera", "Jūrmala"};
static const char *const CLUBS[] = {"Biedrība Rīts", "Kalniņu skola", "Garden Club", "Kooperatīvs Ozols", "Ühistu Tamm"};
static const char *const FIRMS[] = {"SIA &quot;Zaļais Ceļš&quot;", "Masons &amp; Sons Ltd", "AS Latvijas Piens",
                                    "OÜ Puit &amp; Paber", "UAB Gintaras"};

enum { FIVE = 5 };

static uint64_t cents(size_t i) { return 100 + i % 900000; }

static void element(const char *name, const char *text) { printf("<%s>%s</%s>", name, text, name); }

static void amount(const char *name, uint64_t value) {
    printf("<%s Ccy=\"EUR\">%llu.%02llu</%s>", name, (unsigned long long)(value / 100),
           (unsigned long long)(value % 100), name);
}

static void agent(const char *name, size_t bank, const char *branch) {
    printf("<%s><FinInstnId><BICFI>B%c%cKLV22%s</BICFI></FinInstnId></%s>", name, (int)('A' + bank / 26 % 26),
           (int)('A' + bank % 26), branch, name);
}

static void account(const char *name, size_t i) {
    printf("<%s><Id><IBAN>LV%02uBANK%013u</IBAN></Id></%s>", name, (unsigned)(i * 7 % 97), (unsigned)i, name);
}

static void organisation(size_t i) {
    printf("<Id><OrgId><LEI>52990000000000%06u</LEI><Othr><Id>4000%07u</Id><SchmeNm><Cd>TXID</Cd></SchmeNm>"
           "<Issr>VID</Issr></Othr></OrgId></Id>", (unsigned)(i % 1000000), (unsigned)i);
}

static void person(size_t i) {
    printf("<Id><PrvtId><Othr><Id>%06u-1%04u</Id><SchmeNm><Cd>NIDN</Cd></SchmeNm></Othr></PrvtId></Id>",
           (unsigned)(i * 31 % 311299), (unsigned)(i % 10000));
}

static void address(size_t i) {
    printf("<PstlAdr><StrtNm>%s</StrtNm><BldgNb>%u</BldgNb><Room>%u</Room><PstCd>LV-%04u</PstCd><TwnNm>%s</TwnNm>"
           "<Ctry>LV</Ctry></PstlAdr>", STREETS[i % FIVE], (unsigned)(1 + i % 150), (unsigned)(1 + i % 60),
           (unsigned)(1001 + i % 4000), TOWNS[i / 3 % FIVE]);
}

static void party(const char *name, size_t i, int firm) {
    printf("<%s>", name);
    element("Nm", firm ? FIRMS[i % FIVE] : CLUBS[i % FIVE]);
    address(i);
    if (firm) organisation(i);
    else person(i);
    printf("</%s>", name);
}

static void ultimate(const char *name, size_t i) {
    printf("<%s>", name);
    element("Nm", FIRMS[(i + 2) % FIVE]);
    organisation(i + 17);
    printf("</%s>", name);
}

static void remittance(size_t i) {
    if (i % 4 == 0) {
        printf("<RmtInf><Strd><CdtrRefInf><Tp><CdOrPrtry><Cd>SCOR</Cd></CdOrPrtry><Issr>ISO</Issr></Tp>"
               "<Ref>RF%02u%017u</Ref></CdtrRefInf></Strd></RmtInf>", (unsigned)(i % 97), (unsigned)i);
        return;
    }
    printf("<RmtInf><Ustrd>Invoice no. %u of 01.06.2026, contract %u/2025; pakalpojumi un preces par 2026. gada "
           "maiju, saskaņā ar līgumu</Ustrd></RmtInf>", (unsigned)(100000 + i), (unsigned)(i % 5000));
}

static void payment(size_t i) {
    printf("<CdtTrfTxInf><PmtId><InstrId>INSTR-20260615-%07u</InstrId><EndToEndId>E2E/%07u/2026</EndToEndId>"
           "<TxId>SALARIES/2026-06-15/BATCH01/%07u</TxId></PmtId><PmtTpInf><SvcLvl><Cd>SEPA</Cd></SvcLvl>"
           "<CtgyPurp><Cd>SUPP</Cd></CtgyPurp></PmtTpInf>", (unsigned)i, (unsigned)i, (unsigned)i);
    amount("IntrBkSttlmAmt", cents(i));
    element("ChrgBr", "SLEV");
    if (i % 5 == 0) ultimate("UltmtDbtr", i);
    party("Dbtr", i, i % 3 == 0);
    account("DbtrAcct", i);
    agent("DbtrAgt", 300, "XXX");
    agent("CdtrAgt", i % 500, i % 3 == 0 ? "" : "RIX");
    party("Cdtr", i + 1, i % 2 == 0);
    account("CdtrAcct", 7000000 + i);
    if (i % 7 == 0) ultimate("UltmtCdtr", i);
    if (i % 2 == 0) printf("<Purp><Cd>GDDS</Cd></Purp>");
    remittance(i);
    puts("</CdtTrfTxInf>");
}

int main(int argc, char **argv) {
    if (argc != 2) {
        fputs("usage: documents PAYMENTS\n", stderr);
        return 2;
    }
    size_t payments = strtoul(argv[1], NULL, 10);
    uint64_t sum = 0;
    for (size_t i = 0; i < payments; i++) sum += cents(i);
    puts("<?xml version=\"1.0\" encoding=\"UTF-8\"?>");
    puts("<Document xmlns=\"urn:iso:std:iso:20022:tech:xsd:pacs.008.001.08\"><FIToFICstmrCdtTrf><GrpHdr>"
         "<MsgId>SALARIES/2026-06-15/BATCH01</MsgId><CreDtTm>2026-06-15T09:30:00</CreDtTm>");
    printf("<NbOfTxs>%u</NbOfTxs>", (unsigned)payments);
    amount("TtlIntrBkSttlmAmt", sum);
    element("IntrBkSttlmDt", "2026-06-15");
    printf("<SttlmInf><SttlmMtd>CLRG</SttlmMtd><ClrSys><Prtry>EKS</Prtry></ClrSys></SttlmInf>");
    agent("InstgAgt", 300, "");
    puts("</GrpHdr>");
    for (size_t i = 0; i < payments; i++) payment(i);
    puts("</FIToFICstmrCdtTrf></Document>");
    return ferror(stdout) ? 1 : 0;
}
