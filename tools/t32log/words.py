"""Words for what an entry says, and for bytes: shared by the picture and by the list of letters."""
from .reading import Entry

SHORT = 24  # bytes of a letter that a short label shows


def quoted(data: bytes, most: int | None = None) -> str:
    """Bytes as a text in quotes; with `most`, two dots behind it where there are more."""
    shown = data if most is None else data[:most]
    return '"' + "".join(quoted_byte(byte) for byte in shown) + '"' + (" .." if len(shown) < len(data) else "")


def quoted_byte(byte: int) -> str:
    named = {0x0A: "\\n", 0x22: '\\"', 0x5C: "\\\\"}
    if byte in named:
        return named[byte]
    return chr(byte) if 0x20 <= byte < 0x7F else f"\\x{byte:02x}"


def places_listed(places: list[int], most: int = 6) -> str:
    """Some places, the middle left out where there are many."""
    if len(places) <= most:
        return " ".join(str(place) for place in places)
    return " ".join(str(place) for place in places[:most - 2]) + f" .. {places[-1]}"


def counted(number: int, noun: str) -> str:
    return f"{number} {noun}" + ("" if number == 1 else "s")


PHRASES = {
    "tty": lambda e: f"{e.pid} writes {quoted(e.data, SHORT)} to tty {e.tty}",
    "letter": lambda e: f"{e.pid} \u2192 {e.to}  {quoted(e.data, SHORT)}",
    "eof": lambda e: f"{e.pid} \u2192 {e.to}  shuts its end",
    "signal": lambda e: f"{e.pid} \u2192 {e.to}  signal {e.signal}",
    "birth": lambda e: f"{e.pid} forks {e.child}",
    "exit": lambda e: f"{e.pid} exits with {e.number}",
    "trap": lambda e: f"{e.pid} ends by trap {e.number}",
    "killed": lambda e: f"{e.pid} ends by signal {e.number}",
    "limit": lambda e: f"{e.pid} ends at its limit",
    "page": lambda e: f"{e.pid} sends its page {e.page}",
    "sync": lambda e: f"{e.pid} synchronises",
    "take": lambda e: f"{e.pid} synchronises, takes signal {e.signal}",
    "fetch": lambda e: f"{e.pid} asks for page {e.page}",
    "pageis": lambda e: f"page {e.page} comes to {e.pid}",
    "crash": lambda e: f"cluster {e.cluster} is lost",
    "return": lambda e: f"cluster {e.cluster} returns, empty",
    "fresh": lambda e: f"{e.pid} gets a backup in cluster {e.cluster}",
    "standing": lambda e: f"{places_listed(list(e.pids))} get a backup in cluster {e.cluster}",
    "done": lambda e: "nothing can move any more",
    "stop": lambda e: "a cluster had no memory",
}


def phrase(entry: Entry) -> str:
    """What an entry says, in a few words."""
    return PHRASES[entry.kind](entry)
