"""What comes of logins and codes, and what an audit says of a log: in few words, what it means, and what to do."""
from typing import NamedTuple


class Meaning(NamedTuple):
    """What has come of a login or a code: in few words, what that means, and what to do."""

    words: str
    means: str
    to_do: str = ""


GUESS = "Few are mistyped passwords. Many, or of many names, are guesses: limit who may connect, and see what else the same client did."
BROKEN = "The client's program is at fault, or someone tries out the server: see who it is."
# By what is decided: of `refused` the reason, of `failed` with a code that is spent `spent`, of others the event; and `no-pass` of a whole
# session.
MEANINGS = {
    "accepted": Meaning("let in", "The password was right, and one code passed at least, if any was sent."),
    "no-pass": Meaning(
        "right password, no code passed",
        "The password was right, and no code passed. A service that wants a code did not let the user in, and one that wants none did.",
        "If the user knows nothing of it, someone else has the password: change it.",
    ),
    "proof": Meaning("wrong password", "The account is there, and the proof is not of its password.", GUESS),
    "no-account": Meaning("no such account", "The book has no such account. The client was told what a wrong password gets.", GUESS),
    "no-keys": Meaning(
        "no password for this mechanism", "The account is there, but has no keys for the mechanism that the client chose.",
        "Let the client take the other mechanism, or give the account a new password, which makes keys for both.",
    ),
    "acts-as": Meaning(
        "may not act as that name", "The password was right, but the account's act_as does not have the other name.",
        "Ask the user. If it was meant, add the name to act_as; if the user knows nothing of it, change the password.",
    ),
    "mechanism": Meaning("mechanism not offered", "The client asked for another mechanism than SCRAM-SHA-256 and SCRAM-SHA-1.", BROKEN),
    "grammar": Meaning("malformed first message", "What the client sent first is no message of SCRAM.", BROKEN),
    "mandatory": Meaning("extension demanded", "The client's first message demands an extension, and there are none.", BROKEN),
    "binding": Meaning("channel binding demanded", "The client wants channel binding, which is not offered.", "Switch it off there."),
    "name": Meaning("name not in plain ASCII", "The name, or the name to act as, has other characters, or too many.", BROKEN),
    "encoding": Meaning("malformed last message", "What the client sent last is no message of SCRAM.", BROKEN),
    "extensions": Meaning("extension demanded late", "The client's last message demands an extension, and there are none.", BROKEN),
    "nonce": Meaning("answer to another challenge", "The nonce is not the one that was sent: a message was sent again.", BROKEN),
    "channel": Meaning(
        "channel binding does not match", "The client confirms another beginning of the login than the server has seen.",
        "Someone between the two may change what they say: look at TLS, and at what stands between.",
    ),
    "aborted": Meaning("gave up", "The client ended the login by ABORT."),
    "bad-line": Meaning("line out of turn", "The client sent what is no line, or none that was due. The log does not have it.", BROKEN),
    "left": Meaning("left before the end", "The client went away, or the server ended the session, before the login was decided."),
    "busy": Meaning("turned away", "64 sessions were open.", "See whose they were: sessions that stay open keep others out."),
    "passed": Meaning("code passed", "The code was right, and is used up."),
    "failed": Meaning("wrong code", "The code is none of those that may pass.", "Many are guesses: someone has the password. Change it."),
    "spent": Meaning(
        "code used before", "The code is of a counter that is used or passed over, so it never passes again.",
        "Someone may have read it, or the user sent it twice. If the user did not, change the password.",
    ),
    "locked": Meaning("token locked", "Too many codes in a row were wrong, so none is taken.", "Unlock it once you know whose they were."),
    "no-token": Meaning("no token", "The account has no token.", "Give it one, or let the client ask for no code."),
    "halted": Meaning("server stopped", "The server could not save the book, and gave no reply.", "Make room, and begin a new log."),
}
# What comes of sessions without a decided login; of which kind is what comes of others, and else `out`; and these kinds in words.
UNDECIDED = ("left", "busy")
KIND_OF = {"accepted": "in", "no-pass": "unpassed"} | dict.fromkeys(UNDECIDED, "")
KINDS = {"in": MEANINGS["accepted"].words, "unpassed": MEANINGS["no-pass"].words, "out": "refused"}
# What comes of a code, and what is counted as a guess at an account.
OF_CODES = ("passed", "failed", "spent", "locked", "no-token", "halted")
GUESSES = ("proof", "no-account", "failed", "locked")


class Verdict(NamedTuple):
    """What an answer of an audit means: whether it is `good`, `bad` or only `partial`; in a sentence, and what to do."""

    kind: str
    means: str
    to_do: str = ""


BOOK = "See first whether the book is the copy that was made as the log began. "
LOOK = "Believe no line from there on. Keep the log and its book as they are, and find out who could write them."
VERDICTS = {
    "clean": Verdict("good", "The log is clean: each password and each code was judged by the rules."),
    "cut": Verdict(
        "partial", "The log is right so far, and ends where a line is due: the server still writes it, or was stopped.",
        "If the server goes on, make the report again once the log has ended.",
    ),
    "not a line": Verdict("bad", "A line is none of a log: the file was damaged or edited, or another program wrote it.", LOOK),
    "order": Verdict("bad", "A line is not due where it stands: the file was damaged or edited, or another program wrote it.", LOOK),
    "mechs": Verdict("bad", "The server offered other mechanisms than it has: it is at fault, or another program wrote the log.", LOOK),
    "challenge": Verdict("bad", "The server sent a wrong challenge, or the book is another one.", BOOK + LOOK),
    "outcome": Verdict(
        "bad", "A login was accepted that should have been refused, or was wrongly refused; or the book is another one.",
        BOOK + "If an OK stands where a NO was due, treat it as a break-in until you know better. " + LOOK,
    ),
    "reply": Verdict(
        "bad", "A code was taken that is used, too old or wrong, or a right one was not; or the book is another one.", BOOK + LOOK,
    ),
    "too many lines": Verdict(
        "partial", "The first 1000000 lines are right, and what follows can't be audited.",
        "Begin a new log before one has so many.",
    ),
    "read fault": Verdict(
        "partial", "The log could not be read to its end: this is of its first lines.", "The disk or the file system failed: try again.",
    ),
}
