"""Bulletins for harbours in six scripts: what a front server is sent, and who has which alternative."""
import collections
import random

Bulletin = collections.namedtuple("Bulletin", "sender recipients header body")

Port = collections.namedtuple("Port", "office domain pilot name subject berth text")

PORTS = [
    Port("λιμάνι", "παράδειγμα.example", "πλοηγός", "Λιμεναρχείο Πειραιά", "Δελτίο καιρού: βοριάδες 7 μποφόρ από τα μεσάνυχτα", "προβλήτα 3", "Τα πλοία να διπλώσουν κάβους."),
    Port("порт", "гавань.example", "лоцман", "Капитан порта", "Штормовое предупреждение: ветер северо-восточный 23 м/с", "причал № 5", "Судам усилить швартовы."),
    Port("港", "みなと.example", "水先人", "横浜港長", "気象警報:台風第12号は今夜半に最も接近する見込み", "第3埠頭", "係留索を増し取りすること。"),
    Port("höfn", "höfn.example", "leiðsögumaður", "Hafnarstjóri Ísafjarðar", "Stormviðvörun: norðaustan 23 m/s og snjókoma", "bryggja 2", "Skip tvöfaldi landfestar."),
    Port("ميناء", "مرفأ.example", "مرشد", "هيئة الميناء", "تحذير من عاصفة: رياح شمالية شرقية شديدة", "رصيف ٣", "على السفن مضاعفة حبال الرباط."),
    Port("बंदरगाह", "पत्तन.example", "पायलट", "पत्तन प्रबंधक", "तूफान की चेतावनी: उत्तर-पूर्वी हवाएँ 23 मी/से", "घाट 4", "जहाज अपने रस्से दोगुने करें।"),
]


def alternative(port, local):
    return f"{'office' if local == port.office else 'pilot'}+{PORTS.index(port)}@example.net"


def alternatives():
    """The file of alternatives."""
    lines = ["# made for the test"]
    for port in PORTS:
        for local in (port.office, port.pilot):
            lines.append(f"{local}@{port.domain} {alternative(port, local)}")
    return "\n".join([*lines, "# end"]) + "\n"


def named(port, local, chosen):
    """An address of a header: with an inner alternative, or not, or in ASCII."""
    address = f"{local}@{port.domain}"
    return chosen.choice([f"{port.name} <{address} <{alternative(port, local)}>>", f'"{port.name}" <{address}>', address,
                          f"{port.name} <{alternative(port, local)}>", f"{port.name} ({port.berth}) <{address} <{alternative(port, local)}>>"])


def bulletin(number):
    chosen = random.Random(number)
    port = PORTS[number % len(PORTS)]
    other = chosen.choice(PORTS)
    pilots = [f"{port.pilot}@{port.domain}", f"{other.pilot}@{other.domain}", f"pilot{number}@example.net"]
    recipients = list(dict.fromkeys(chosen.sample(pilots, chosen.choice([1, 1, 2, 3]))))
    header = [f"From: {named(port, port.office, chosen)}", f"To: {named(port, port.pilot, chosen)}, {named(other, other.pilot, chosen)}",
              f"Subject: {port.subject} ({number})", "Date: Mon, 2 Feb 2026 18:00:00 +0200", f"Message-ID: <bulletin-{number}@example.org>",
              f"X-Berth: {port.berth}", f"X-Issue: {number}"]
    if number % 4 == 0:
        header.append(f"Cc: {port.name}: {named(port, port.pilot, chosen)}, {named(other, other.office, chosen)};")
    if number % 5 == 0:
        header.append(f"Bcc: {other.office}@{other.domain}")
    if number % 7 == 0:
        header.append("Comments: " + " ".join([port.text] * 9) + "\r\n " + " ".join([other.text] * 9))
    header += ["MIME-Version: 1.0", "Content-Type: text/plain; charset=UTF-8", "Content-Transfer-Encoding: 8bit"]
    lines = [port.text, ".", "..", f".{number}", "", other.text if number % 3 else "ASCII alone"] * chosen.randrange(1, 30)
    body = ["ASCII alone", ".", "."] if number % 10 == 0 else lines
    return Bulletin(f"{port.office}@{port.domain}", recipients, "".join(line + "\r\n" for line in header), "".join(line + "\r\n" for line in body))
