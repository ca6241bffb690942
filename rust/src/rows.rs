//! The inputs that the calls are timed on.

pub struct Row {
    pub label: String,
    pub setting: u64,
    pub envelope: Vec<u8>,
    pub header: Vec<u8>,
}

pub const ENVELOPE: &str = "MAIL FROM:<é@example.org> SIZE=1000 ALT-ADDRESS=e+2Bx@example.org\r\n\
    RCPT TO:<b@example.net>\r\nRCPT TO:<αβ@example.net> ALT-ADDRESS=ab@example.net\r\n";

/// One that a current message may have.
pub const ASCII_ENVELOPE: &str =
    "MAIL FROM:<e+x@example.org> SIZE=1000\r\nRCPT TO:<b@example.net>\r\nRCPT TO:<ab@example.net>\r\n";

/// A header of about `size` bytes: these fields over and over, the last one cut to an ASCII field.
pub fn header(size: usize, fields: &[&str]) -> Vec<u8> {
    let mut out = Vec::new();
    let mut next = 0;
    while out.len() + fields[next].len() + 8 < size {
        out.extend_from_slice(fields[next].as_bytes());
        next = (next + 1) % fields.len();
    }
    while out.len() + 8 < size {
        let len = (size - out.len() - 5).min(900);
        out.extend_from_slice(b"X: ");
        out.resize(out.len() + len, b'x');
        out.extend_from_slice(b"\r\n");
    }
    out
}

/// What a bulletin's header looks like: some fields ASCII, some not.
pub const MIXED: &[&str] = &[
    "Received: from mail.example.org (mail.example.org [192.0.2.1])\r\n\tby mx.example.net with ESMTP id 12345;\r\n\tMon, 1 Jan 2024 00:00:00 +0000\r\n",
    "From: Jørgen Ås <jørgen@example.org <jorgen@example.org>>\r\n",
    "To: b@example.net, \"Havn, Øst\" <c@example.net>, αβ@example.net\r\n",
    "Subject: Strømvarsel for kysten, kuling fra nordvest\r\n",
    "Date: Mon, 1 Jan 2024 00:00:00 +0000\r\n",
    "Message-ID: <12345@example.org>\r\n",
    "X-Area: Skåne, Öresund\r\n",
];

/// Greek, in plain text, encapsulated and address fields, some folded.
const NON_ASCII: &[&str] = &[
    "Subject: Πρόγνωση καιρού για το Αιγαίο\r\n",
    "X-Note: Άνεμοι βόρειοι\r\n ισχυροί\r\n κατά τόπους\r\n",
    "Cc: Λιμάνι Πειραιά <λιμάνι@example.gr <port@example.gr>>,\r\n πλοηγός@example.gr\r\n",
    "Comments: 海上風警報 気象庁発表\r\n",
];

pub const ASCII: &[&str] = &[
    "Received: from mail.example.org (mail.example.org [192.0.2.1])\r\n\tby mx.example.net with ESMTP id 12345;\r\n\tMon, 1 Jan 2024 00:00:00 +0000\r\n",
    "DKIM-Signature: v=1; a=rsa-sha256; c=relaxed/relaxed; d=example.org; s=key;\r\n h=from:to:subject:date; bh=47DEQpj8HBSa+/TImW+5JCeuQeRkm5NMpJWZG3hSuFU=;\r\n b=dzdVyOfAKCdLXdJOc9G2q8LoXSlEniSbav+yuU4zGeeruD00lszZVoG4ZHRNiYzR\r\n",
    "X-Spam-Status: No, score=-1.9 required=5.0 tests=BAYES_00 autolearn=ham\r\n",
    "Message-ID: <12345@example.org>\r\n",
];

/// Greek and Japanese in plain text and encapsulated fields.
const GREEK: &[&str] = &[
    "Subject: Πρόγνωση καιρού για το Αιγαίο, άνεμοι βόρειοι ισχυροί\r\n",
    "X-Note: Άνεμοι βόρειοι\r\n ισχυροί\r\n κατά τόπους\r\n",
    "Comments: Δελτίο καιρού: βοριάδες από τα μεσάνυχτα έως το πρωί\r\n",
];
const JAPANESE: &[&str] = &[
    "Subject: 海上風警報気象庁発表、北西の風が強まる見込み。\r\n",
    "X-Note: 東京湾の船舶は\r\n 今夜から明朝にかけて\r\n 十分に注意してください。\r\n",
    "Comments: 港湾当局は入港を制限する場合があります。最新の情報を確認すること。\r\n",
];
const ALTERNATIVES: &[&str] = &[
    "To: Λιμάνι Πειραιά <λιμάνι@example.gr <port@example.gr>>, Jørgen Ås <jørgen@example.org <jorgen@example.org>>,\r\n Øst <øst@example.net <ost@example.net>>\r\n",
    "Cc: 港湾局 <港湾@example.jp <kowan@example.jp>>, b@example.net\r\n",
];
const GROUPS: &[&str] = &[
    "To: Πλοηγοί: α@example.gr, b@example.gr, \"Γ, Δ\" <c@example.gr>;, d@example.org\r\n",
    "Cc: Havner: Øst <ost@example.no>, Sør <sor@example.no>, nord@example.no;\r\n",
    "Bcc: Βάρδια:;\r\n",
];
const COMMENTS: &[&str] = &[
    "Date: Mon, 2 Feb 2026 18:00:00 +0200 (ώρα Ελλάδος)\r\n",
    "To: pilot@example.net (Πλοηγός (βάρδια 3)), Øst <c@example.net> (kai 4), d@example.org (προβλήτα 7)\r\n",
    "Message-ID: <12345@example.org> (δελτίο \\(17\\))\r\n",
    "From: (λιμεναρχείο) Limani <limani@example.org>\r\n",
];
/// Trace lines with clauses that go, and one whose clause stays.
pub const RECEIVED: &[&str] = &[
    "Received: from mail.example.gr (mail.example.gr [192.0.2.1])\r\n\tby mx.example.net (Λιμάνι Πειραιά) with ESMTP id 12345\r\n\tfor <λιμάνι@example.gr>;\r\n\tMon, 1 Jan 2024 00:00:00 +0000\r\n",
    "Received: from a.example.gr by b.example.gr with UTF8SMTP id 54321 for <πλοηγός@example.gr>;\r\n\tMon, 1 Jan 2024 00:00:00 +0000\r\n",
    "Received: by c.example.gr (βάση) id 1 for <port@example.gr>; Mon, 1 Jan 2024 00:00:00 +0000\r\n",
];
/// Charts: names that fit a line, and names in parts.
pub const PARAMETERS: &[&str] = &[
    "Content-Type: image/png; name=\"χάρτης Αιγαίου.png\"\r\n",
    "Content-Disposition: attachment; filename=\"Δελτίο καιρού για το Αιγαίο, άνεμοι βόρειοι ισχυροί.pdf\";\r\n size=12345\r\n",
    "Content-Type: text/plain; charset=utf-8; name=Skåne.txt (kart over Øresund)\r\n",
    "Content-Disposition: inline; filename=海上風警報気象庁発表北西の風が強まる見込み.txt\r\n",
];

fn nearly_ascii(size: usize) -> Vec<u8> {
    let mut out = "Subject: Strømvarsel\r\n".as_bytes().to_vec();
    out.extend_from_slice(&header(size - 50, ASCII));
    out.extend_from_slice("To: Øst <c@example.net>\r\n".as_bytes());
    out
}

fn one_text(size: usize) -> Vec<u8> {
    let mut out = b"Subject:".to_vec();
    while out.len() + 500 < size {
        out.extend_from_slice(b"\r\n ");
        for _ in 0..24 {
            out.extend_from_slice("Πρόγνωση ".as_bytes());
        }
    }
    out.extend_from_slice(b"\r\n");
    out
}

/// What a relay sees: 2.5 KB of ASCII trace and signature fields, and five fields that are not ASCII.
fn bulletin() -> Vec<u8> {
    let mut out = header(2400, ASCII);
    for field in [
        "From: Λιμεναρχείο Πειραιά <λιμάνι@παράδειγμα.example <limani@example.org>>\r\n",
        "To: Πλοηγός <pilot@example.net>, \"Havn, Øst\" <c@example.net>,\r\n βάρδια@λιμάνι.example\r\n",
        "Subject: Δελτίο καιρού: βοριάδες 7 μποφόρ από τα μεσάνυχτα\r\n",
        "Date: Mon, 2 Feb 2026 18:00:00 +0200\r\n",
        "Message-ID: <bulletin-17@example.org>\r\n",
        "MIME-Version: 1.0\r\nContent-Type: text/plain; charset=utf-8\r\nContent-Transfer-Encoding: 8bit\r\n",
        "X-Berth: προβλήτα 3\r\n",
        "Comments: ισχύει έως τις 06:00 τοπική ώρα\r\n",
    ] {
        out.extend_from_slice(field.as_bytes());
    }
    out
}

fn recipients(count: usize, every: usize) -> Vec<u8> {
    let mut out = b"MAIL FROM:<bulletin@example.org> SIZE=1000\r\n".to_vec();
    for n in 0..count {
        let line = if n % every == every - 1 {
            format!("RCPT TO:<λιμάνι{n}@example.gr> ALT-ADDRESS=port{n}@example.gr\r\n")
        } else {
            format!("RCPT TO:<berth{n}@example.net> NOTIFY=NEVER\r\n")
        };
        out.extend_from_slice(line.as_bytes());
    }
    out
}

fn row(label: &str, setting: u64, envelope: &[u8], header: Vec<u8>) -> Row {
    Row { label: label.into(), setting, envelope: envelope.to_vec(), header }
}

/// The rows of the whole call.
pub fn rows() -> Vec<Row> {
    let (e, p) = (ENVELOPE.as_bytes(), ASCII_ENVELOPE.as_bytes());
    vec![
        row("mixed 1K", 0, e, header(1024, MIXED)),
        row("mixed 1K, ascii envelope", 0, p, header(1024, MIXED)),
        row("mixed 1K, current", 1, p, header(1024, MIXED)),
        row("nearly ascii 1K", 0, e, nearly_ascii(1024)),
        row("nearly ascii 1K, ascii envelope", 0, p, nearly_ascii(1024)),
        row("bulletin 3K", 0, e, bulletin()),
        row("mixed 30K", 0, e, header(30_720, MIXED)),
        row("Greek 30K", 0, e, header(30_720, GREEK)),
        row("Greek and addresses 30K", 0, e, header(30_720, NON_ASCII)),
        row("Japanese 30K", 0, e, header(30_720, JAPANESE)),
        row("one folded text 30K", 0, e, one_text(30_720)),
        row("nearly ascii 30K", 0, e, nearly_ascii(30_720)),
        row("all ascii 30K", 0, p, header(30_720, ASCII)),
        row("100 RCPT, nearly ascii 1K", 0, &recipients(100, 1000), nearly_ascii(1024)),
        row("100 RCPT, half swapped, 1K", 0, &recipients(100, 2), nearly_ascii(1024)),
        row("alternatives 1K", 0, p, header(1024, ALTERNATIVES)),
        row("groups 1K", 0, p, header(1024, GROUPS)),
        row("comments 1K", 0, p, header(1024, COMMENTS)),
        row("Received for 1K", 0, p, header(1024, RECEIVED)),
        row("Received for 16K", 0, p, header(16_384, RECEIVED)),
        row("one Received for, in ascii 3K", 0, p, [&header(2700, ASCII)[..], RECEIVED[1].as_bytes()].concat()),
        row("parameters 1K", 0, p, header(1024, PARAMETERS)),
        row("parameters 16K", 0, p, header(16_384, PARAMETERS)),
        row("one chart name, in ascii 3K", 0, p, [&header(2700, ASCII)[..], PARAMETERS[1].as_bytes()].concat()),
    ]
}

/// Headers for the mailbox's call.
pub fn mailbox_rows() -> Vec<(String, Vec<u8>)> {
    vec![
        ("mailbox, mixed 1K".into(), header(1024, MIXED)),
        ("mailbox, bulletin 3K".into(), bulletin()),
        ("mailbox, Greek and addresses 30K".into(), header(30_720, NON_ASCII)),
        ("mailbox, nearly ascii 30K".into(), nearly_ascii(30_720)),
        ("mailbox, all ascii 30K".into(), header(30_720, ASCII)),
    ]
}

/// The kinds whose time is followed over the size of a header.
pub fn growing(size: usize) -> Vec<Row> {
    let p = ASCII_ENVELOPE.as_bytes();
    let kinds: [(&str, &[&str]); 8] = [
        ("mixed", MIXED),
        ("Greek", GREEK),
        ("Japanese", JAPANESE),
        ("ascii", ASCII),
        ("groups", GROUPS),
        ("comments", COMMENTS),
        ("Received for", RECEIVED),
        ("parameters", PARAMETERS),
    ];
    kinds.into_iter().map(|(label, fields)| row(label, 0, p, header(size, fields))).collect()
}
