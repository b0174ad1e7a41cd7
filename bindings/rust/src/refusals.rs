//! The refusals' names, and what is to be said of them.
//! Written by scripts/refusals.py from docs/REFUSALS.md: change it there.

use crate::refusal::Refusal;

/// The numbers by name.
impl Refusal {
    /// 1, too long.
    pub const TOO_LONG: u8 = 1;
    /// 2, runs out.
    pub const RUNS_OUT: u8 = 2;
    /// 3, bad identifier.
    pub const BAD_IDENTIFIER: u8 = 3;
    /// 4, bad length.
    pub const BAD_LENGTH: u8 = 4;
    /// 5, too deep.
    pub const TOO_DEEP: u8 = 5;
    /// 6, too many elements.
    pub const TOO_MANY_ELEMENTS: u8 = 6;
    /// 7, spare bytes.
    pub const SPARE_BYTES: u8 = 7;
    /// 8, unknown version.
    pub const UNKNOWN_VERSION: u8 = 8;
    /// 9, wrong element.
    pub const WRONG_ELEMENT: u8 = 9;
    /// 10, bad content.
    pub const BAD_CONTENT: u8 = 10;
    /// 11, not in version.
    pub const NOT_IN_VERSION: u8 = 11;
    /// 12, field order.
    pub const FIELD_ORDER: u8 = 12;
    /// 13, member order.
    pub const MEMBER_ORDER: u8 = 13;
    /// 14, too many members.
    pub const TOO_MANY_MEMBERS: u8 = 14;
    /// 20, ill-shaped.
    pub const ILL_SHAPED: u8 = 20;
    /// 21, output short.
    pub const OUTPUT_SHORT: u8 = 21;
    /// 22, encoding too long.
    pub const ENCODING_TOO_LONG: u8 = 22;
    /// 30, purpose unknown.
    pub const PURPOSE_UNKNOWN: u8 = 30;
    /// 31, purpose not allowed.
    pub const PURPOSE_NOT_ALLOWED: u8 = 31;
    /// 32, algorithm unfit.
    pub const ALGORITHM_UNFIT: u8 = 32;
    /// 33, padding not allowed.
    pub const PADDING_NOT_ALLOWED: u8 = 33;
    /// 34, digest not allowed.
    pub const DIGEST_NOT_ALLOWED: u8 = 34;
    /// 35, key too small.
    pub const KEY_TOO_SMALL: u8 = 35;
    /// 36, clock below floor.
    pub const CLOCK_BELOW_FLOOR: u8 = 36;
    /// 37, not yet active.
    pub const NOT_YET_ACTIVE: u8 = 37;
    /// 38, expired.
    pub const EXPIRED: u8 = 38;
    /// 39, no auth rule.
    pub const NO_AUTH_RULE: u8 = 39;
    /// 40, token unfit.
    pub const TOKEN_UNFIT: u8 = 40;
    /// 41, token not fresh.
    pub const TOKEN_NOT_FRESH: u8 = 41;
    /// 42, device locked.
    pub const DEVICE_LOCKED: u8 = 42;
    /// 43, user not present.
    pub const USER_NOT_PRESENT: u8 = 43;
    /// 44, not confirmed.
    pub const NOT_CONFIRMED: u8 = 44;
    /// 45, early boot over.
    pub const EARLY_BOOT_OVER: u8 = 45;
    /// 46, used up.
    pub const USED_UP: u8 = 46;
    /// 50, challenge differs.
    pub const CHALLENGE_DIFFERS: u8 = 50;
    /// 51, software level.
    pub const SOFTWARE_LEVEL: u8 = 51;
    /// 52, no root of trust.
    pub const NO_ROOT_OF_TRUST: u8 = 52;
    /// 53, boot unlocked.
    pub const BOOT_UNLOCKED: u8 = 53;
    /// 54, boot not verified.
    pub const BOOT_NOT_VERIFIED: u8 = 54;
    /// 55, origin not generated.
    pub const ORIGIN_NOT_GENERATED: u8 = 55;
    /// 200, short image.
    pub const SHORT_IMAGE: u8 = 200;
}

/// Number, name, sentence and advice.
pub(crate) const ROWS: [(u8, &str, &str, &str); 41] = [
    (
        1,
        "too long",
        "More than 8,192 bytes.",
        "Whoever exported it: hand over the extension's content alone, not the certificate or the chain.",
    ),
    (
        2,
        "runs out",
        "No element at all, or one whose identifier, length or content does not fit into the element around it \
         (or into the file).",
        "At place 0 the file is cut or empty: fetch it again. Further inside, a length is wrong: the encoder \
         is at fault.",
    ),
    (
        3,
        "bad identifier",
        "A tag number from 31 on that is not in its shortest form, is under 31, or takes more than two octets \
         after the first.",
        "The encoder's maker. DER allows one form of each number.",
    ),
    (
        4,
        "bad length",
        "An indefinite length (80), one of three octets or more (83 to FF), or one that is not shortest (81 \
         7F, 82 00 ..).",
        "The encoder's maker. BER that is not DER looks like this.",
    ),
    (
        5,
        "too deep",
        "An element at the ninth level. No schema of an attestation nests so deep.",
        "Not an attestation extension, or a hostile one: do not go on with it.",
    ),
    (
        6,
        "too many elements",
        "A 513th element.",
        "Not an attestation extension, or a hostile one: do not go on with it.",
    ),
    (
        7,
        "spare bytes",
        "The outermost element is whole, and bytes follow it.",
        "Whoever exported it: two files were joined, or padding was added.",
    ),
    (
        8,
        "unknown version",
        "The attestation version is a good INTEGER, but none of 1, 2, 3, 4, 100, 200 and 300.",
        "A newer schema than this program knows, or not an attestation: look the version up in Google's list.",
    ),
    (
        9,
        "wrong element",
        "Another element than the schema has there, one that is missing, or one too many.",
        "The encoder's maker. At place 0 the file is no KeyDescription at all: the certificate, or another \
         extension.",
    ),
    (
        10,
        "bad content",
        "An INTEGER or ENUMERATED that is negative, not shortest or above its top (levels and states have \
         small ones), a BOOLEAN that is not 00 or FF, or a NULL that holds something.",
        "The encoder's maker. A level 2 in version 1 or 2 gives this too: those know no StrongBox.",
    ),
    (
        11,
        "not in version",
        "A field whose number the version's schema does not print.",
        "The encoder's maker: version and fields do not belong together.",
    ),
    (
        12,
        "field order",
        "A field's number is not above the one before it in the same list.",
        "The encoder's maker. Fields ascend, and none stands twice.",
    ),
    (
        13,
        "member order",
        "A set's member is not above the one before.",
        "The encoder's maker. DER sorts a set; none stands twice.",
    ),
    (
        14,
        "too many members",
        "A set's 17th member.",
        "More than any key is made with: do not go on with it.",
    ),
    (
        20,
        "ill-shaped",
        "The record is not one that its version's schema allows (an unknown version, a level or number above \
         its top, a field that the version does not hold, a set that does not ascend or has more than 16 \
         members, a boot hash before version 3 or none from it on); or an octet part does not lie in the bytes \
         that were lent; or, from C, the image is that of no record.",
        "The caller. A record that was read is well-shaped: if it was not changed, the wrong bytes were lent \
         with it.",
    ),
    (
        21,
        "output short",
        "The output has fewer bytes than the encoding, or than a listing asks for.",
        "The caller: lend a longer one; 8,192 bytes are always enough for an encoding, and 491,520 for a \
         listing.",
    ),
    (
        22,
        "encoding too long",
        "The record's encoding has more than 8,192 bytes, and no reader would take it.",
        "The caller: shorten the challenge or the octet fields.",
    ),
    (
        30,
        "purpose unknown",
        "The request is for something else than decrypting (1), signing (2), agreeing on a key (6) or \
         attesting a key (7).",
        "The caller's request is wrong.",
    ),
    (
        31,
        "purpose not allowed",
        "Neither list has a set of purposes [1], or one that is there lacks this purpose.",
        "The key was made for something else. Use another key.",
    ),
    (
        32,
        "algorithm unfit",
        "Neither list has an algorithm [2], the two lists name different ones, or it is not RSA (1) or EC (3) \
         in a place where that can do what is asked.",
        "If the lists disagree, do not trust the attestation. Else another key.",
    ),
    (
        33,
        "padding not allowed",
        "The padding does not go with this use of this algorithm, or neither list has a set of paddings [6], \
         or one that is there lacks it.",
        "The caller: ask for a padding that the key was made with.",
    ),
    (
        34,
        "digest not allowed",
        "The digest does not go with the padding, or neither list has a set of digests [5], or one that is \
         there lacks it.",
        "The caller: ask for a digest that the key was made with.",
    ),
    (
        35,
        "key too small",
        "For RSA signing with padding 3 (PSS): no list has the key size [3], or one that is there is too small \
         for the digest.",
        "A larger key, or a shorter digest.",
    ),
    (
        36,
        "clock below floor",
        "The key has a date that applies (400 for any use, 401 for signing and attesting, 402 for decrypting \
         and agreeing), in either list, and the panel's clock is before the floor.",
        "The field engineer: set the clock, change the battery, and ask again. Nothing can be said about the \
         date until then.",
    ),
    (
        37,
        "not yet active",
        "The clock is before the start date [400] of one of the lists. At the very millisecond it is allowed.",
        "Wait; or, if that date has long passed elsewhere, set the clock.",
    ),
    (
        38,
        "expired",
        "The clock is after the expiry date that applies, [401] or [402], of one of the lists. At the very \
         millisecond it is allowed.",
        "A new key.",
    ),
    (
        39,
        "no auth rule",
        "Neither list says that no authentication is needed [503], and neither names one [504].",
        "Do not use the key: its maker left it open who may.",
    ),
    (
        40,
        "token unfit",
        "A list asks for the user's authentication [504], and there is none, or it is of no kind that the list \
         names. With [503] beside it the same: it does not cancel [504].",
        "The user: authenticate, by fingerprint or password as the key asks.",
    ),
    (
        41,
        "token not fresh",
        "The authentication is too old for the timeout [505] of one of the lists, or lies in the future of the \
         panel's uptime; or, where no list has a timeout, it was given for another operation.",
        "The user: authenticate again, for this very operation.",
    ),
    (
        42,
        "device locked",
        "A list wants the device unlocked [509], and it is locked.",
        "The user: unlock it.",
    ),
    (
        43,
        "user not present",
        "A list wants the user to be there [507], and no presence was shown.",
        "The user: press the button, or whatever shows presence.",
    ),
    (
        44,
        "not confirmed",
        "A list wants the user's confirmation [508], and there was none.",
        "The user: confirm on the panel.",
    ),
    (
        45,
        "early boot over",
        "A list allows the key during early boot only [305], and that is over.",
        "Restart, or use another key.",
    ),
    (
        46,
        "used up",
        "A list limits how often the key may be used [405], and that many uses have been.",
        "A new key.",
    ),
    (
        50,
        "challenge differs",
        "The challenge that was asked for is not 1 to 128 bytes long, or is not the one in the attestation.",
        "An old or another panel's attestation: ask anew with a fresh challenge.",
    ),
    (
        51,
        "software level",
        "One of the two security levels is Software: no hardware stands behind the key or behind the \
         attestation.",
        "Do not take it on.",
    ),
    (
        52,
        "no root of trust",
        "The hardware list has no root of trust [704].",
        "Do not take it on.",
    ),
    (
        53,
        "boot unlocked",
        "The device's boot loader is unlocked.",
        "Lock it and make a new key, or send the panel back.",
    ),
    (
        54,
        "boot not verified",
        "The boot state is SelfSigned (1), Unverified (2) or Failed (3).",
        "Install the maker's system and make a new key.",
    ),
    (
        55,
        "origin not generated",
        "The hardware list has no origin [702], or the key was not made inside the hardware.",
        "Make a new key in the device.",
    ),
    (
        200,
        "short image",
        "A lent image, request, permit or part has too few words.",
        "The caller: lend at least as many words as the header's constants say.",
    ),
];
