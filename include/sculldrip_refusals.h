/* The refusals of Sculldrip: their names, and what is to be said of them. sculldrip.h includes this file.
 * Written by scripts/refusals.py from docs/REFUSALS.md: change it there. */
#ifndef SCULLDRIP_REFUSALS_H
#define SCULLDRIP_REFUSALS_H

enum sculldrip_refusal {
    SCULLDRIP_REFUSED_TOO_LONG = 1,
    SCULLDRIP_REFUSED_RUNS_OUT = 2,
    SCULLDRIP_REFUSED_BAD_IDENTIFIER = 3,
    SCULLDRIP_REFUSED_BAD_LENGTH = 4,
    SCULLDRIP_REFUSED_TOO_DEEP = 5,
    SCULLDRIP_REFUSED_TOO_MANY_ELEMENTS = 6,
    SCULLDRIP_REFUSED_SPARE_BYTES = 7,
    SCULLDRIP_REFUSED_UNKNOWN_VERSION = 8,
    SCULLDRIP_REFUSED_WRONG_ELEMENT = 9,
    SCULLDRIP_REFUSED_BAD_CONTENT = 10,
    SCULLDRIP_REFUSED_NOT_IN_VERSION = 11,
    SCULLDRIP_REFUSED_FIELD_ORDER = 12,
    SCULLDRIP_REFUSED_MEMBER_ORDER = 13,
    SCULLDRIP_REFUSED_TOO_MANY_MEMBERS = 14,
    SCULLDRIP_REFUSED_ILL_SHAPED = 20,
    SCULLDRIP_REFUSED_OUTPUT_SHORT = 21,
    SCULLDRIP_REFUSED_ENCODING_TOO_LONG = 22,
    SCULLDRIP_REFUSED_PURPOSE_UNKNOWN = 30,
    SCULLDRIP_REFUSED_PURPOSE_NOT_ALLOWED = 31,
    SCULLDRIP_REFUSED_ALGORITHM_UNFIT = 32,
    SCULLDRIP_REFUSED_PADDING_NOT_ALLOWED = 33,
    SCULLDRIP_REFUSED_DIGEST_NOT_ALLOWED = 34,
    SCULLDRIP_REFUSED_KEY_TOO_SMALL = 35,
    SCULLDRIP_REFUSED_CLOCK_BELOW_FLOOR = 36,
    SCULLDRIP_REFUSED_NOT_YET_ACTIVE = 37,
    SCULLDRIP_REFUSED_EXPIRED = 38,
    SCULLDRIP_REFUSED_NO_AUTH_RULE = 39,
    SCULLDRIP_REFUSED_TOKEN_UNFIT = 40,
    SCULLDRIP_REFUSED_TOKEN_NOT_FRESH = 41,
    SCULLDRIP_REFUSED_DEVICE_LOCKED = 42,
    SCULLDRIP_REFUSED_USER_NOT_PRESENT = 43,
    SCULLDRIP_REFUSED_NOT_CONFIRMED = 44,
    SCULLDRIP_REFUSED_EARLY_BOOT_OVER = 45,
    SCULLDRIP_REFUSED_USED_UP = 46,
    SCULLDRIP_REFUSED_CHALLENGE_DIFFERS = 50,
    SCULLDRIP_REFUSED_SOFTWARE_LEVEL = 51,
    SCULLDRIP_REFUSED_NO_ROOT_OF_TRUST = 52,
    SCULLDRIP_REFUSED_BOOT_UNLOCKED = 53,
    SCULLDRIP_REFUSED_BOOT_NOT_VERIFIED = 54,
    SCULLDRIP_REFUSED_ORIGIN_NOT_GENERATED = 55,
    SCULLDRIP_REFUSED_SHORT_IMAGE = 200
};

/* A refusal's name, in two or three words. */
static inline const char *sculldrip_name(unsigned number) {
    switch (number) {
    case 1:
        return "too long";
    case 2:
        return "runs out";
    case 3:
        return "bad identifier";
    case 4:
        return "bad length";
    case 5:
        return "too deep";
    case 6:
        return "too many elements";
    case 7:
        return "spare bytes";
    case 8:
        return "unknown version";
    case 9:
        return "wrong element";
    case 10:
        return "bad content";
    case 11:
        return "not in version";
    case 12:
        return "field order";
    case 13:
        return "member order";
    case 14:
        return "too many members";
    case 20:
        return "ill-shaped";
    case 21:
        return "output short";
    case 22:
        return "encoding too long";
    case 30:
        return "purpose unknown";
    case 31:
        return "purpose not allowed";
    case 32:
        return "algorithm unfit";
    case 33:
        return "padding not allowed";
    case 34:
        return "digest not allowed";
    case 35:
        return "key too small";
    case 36:
        return "clock below floor";
    case 37:
        return "not yet active";
    case 38:
        return "expired";
    case 39:
        return "no auth rule";
    case 40:
        return "token unfit";
    case 41:
        return "token not fresh";
    case 42:
        return "device locked";
    case 43:
        return "user not present";
    case 44:
        return "not confirmed";
    case 45:
        return "early boot over";
    case 46:
        return "used up";
    case 50:
        return "challenge differs";
    case 51:
        return "software level";
    case 52:
        return "no root of trust";
    case 53:
        return "boot unlocked";
    case 54:
        return "boot not verified";
    case 55:
        return "origin not generated";
    case 200:
        return "short image";
    default:
        return "no refusal";
    }
}

/* What was found, in a sentence or two. */
static inline const char *sculldrip_sentence(unsigned number) {
    switch (number) {
    case 1:
        return "More than 8,192 bytes.";
    case 2:
        return "No element at all, or one whose identifier, length or content does not fit into the element "
               "around it (or into the file).";
    case 3:
        return "A tag number from 31 on that is not in its shortest form, is under 31, or takes more than two "
               "octets after the first.";
    case 4:
        return "An indefinite length (80), one of three octets or more (83 to FF), or one that is not shortest "
               "(81 7F, 82 00 ..).";
    case 5:
        return "An element at the ninth level. No schema of an attestation nests so deep.";
    case 6:
        return "A 513th element.";
    case 7:
        return "The outermost element is whole, and bytes follow it.";
    case 8:
        return "The attestation version is a good INTEGER, but none of 1, 2, 3, 4, 100, 200 and 300.";
    case 9:
        return "Another element than the schema has there, one that is missing, or one too many.";
    case 10:
        return "An INTEGER or ENUMERATED that is negative, not shortest or above its top (levels and states "
               "have small ones), a BOOLEAN that is not 00 or FF, or a NULL that holds something.";
    case 11:
        return "A field whose number the version's schema does not print.";
    case 12:
        return "A field's number is not above the one before it in the same list.";
    case 13:
        return "A set's member is not above the one before.";
    case 14:
        return "A set's 17th member.";
    case 20:
        return "The record is not one that its version's schema allows (an unknown version, a level or number "
               "above its top, a field that the version does not hold, a set that does not ascend or has more "
               "than 16 members, a boot hash before version 3 or none from it on); or an octet part does not "
               "lie in the bytes that were lent; or, from C, the image is that of no record.";
    case 21:
        return "The output has fewer bytes than the encoding, or than a listing asks for.";
    case 22:
        return "The record's encoding has more than 8,192 bytes, and no reader would take it.";
    case 30:
        return "The request is for something else than decrypting (1), signing (2), agreeing on a key (6) or "
               "attesting a key (7).";
    case 31:
        return "Neither list has a set of purposes [1], or one that is there lacks this purpose.";
    case 32:
        return "Neither list has an algorithm [2], the two lists name different ones, or it is not RSA (1) or "
               "EC (3) in a place where that can do what is asked.";
    case 33:
        return "The padding does not go with this use of this algorithm, or neither list has a set of paddings "
               "[6], or one that is there lacks it.";
    case 34:
        return "The digest does not go with the padding, or neither list has a set of digests [5], or one that "
               "is there lacks it.";
    case 35:
        return "For RSA signing with padding 3 (PSS): no list has the key size [3], or one that is there is "
               "too small for the digest.";
    case 36:
        return "The key has a date that applies (400 for any use, 401 for signing and attesting, 402 for "
               "decrypting and agreeing), in either list, and the panel's clock is before the floor.";
    case 37:
        return "The clock is before the start date [400] of one of the lists. At the very millisecond it is "
               "allowed.";
    case 38:
        return "The clock is after the expiry date that applies, [401] or [402], of one of the lists. At the "
               "very millisecond it is allowed.";
    case 39:
        return "Neither list says that no authentication is needed [503], and neither names one [504].";
    case 40:
        return "A list asks for the user's authentication [504], and there is none, or it is of no kind that "
               "the list names. With [503] beside it the same: it does not cancel [504].";
    case 41:
        return "The authentication is too old for the timeout [505] of one of the lists, or lies in the future "
               "of the panel's uptime; or, where no list has a timeout, it was given for another operation.";
    case 42:
        return "A list wants the device unlocked [509], and it is locked.";
    case 43:
        return "A list wants the user to be there [507], and no presence was shown.";
    case 44:
        return "A list wants the user's confirmation [508], and there was none.";
    case 45:
        return "A list allows the key during early boot only [305], and that is over.";
    case 46:
        return "A list limits how often the key may be used [405], and that many uses have been.";
    case 50:
        return "The challenge that was asked for is not 1 to 128 bytes long, or is not the one in the "
               "attestation.";
    case 51:
        return "One of the two security levels is Software: no hardware stands behind the key or behind the "
               "attestation.";
    case 52:
        return "The hardware list has no root of trust [704].";
    case 53:
        return "The device's boot loader is unlocked.";
    case 54:
        return "The boot state is SelfSigned (1), Unverified (2) or Failed (3).";
    case 55:
        return "The hardware list has no origin [702], or the key was not made inside the hardware.";
    case 200:
        return "A lent image, request, permit or part has too few words.";
    default:
        return "No refusal of the library has this number.";
    }
}

/* Who can mend it, and how. */
static inline const char *sculldrip_advice(unsigned number) {
    switch (number) {
    case 1:
        return "Whoever exported it: hand over the extension's content alone, not the certificate or the chain.";
    case 2:
        return "At place 0 the file is cut or empty: fetch it again. Further inside, a length is wrong: the "
               "encoder is at fault.";
    case 3:
        return "The encoder's maker. DER allows one form of each number.";
    case 4:
        return "The encoder's maker. BER that is not DER looks like this.";
    case 5:
        return "Not an attestation extension, or a hostile one: do not go on with it.";
    case 6:
        return "Not an attestation extension, or a hostile one: do not go on with it.";
    case 7:
        return "Whoever exported it: two files were joined, or padding was added.";
    case 8:
        return "A newer schema than this program knows, or not an attestation: look the version up in Google's "
               "list.";
    case 9:
        return "The encoder's maker. At place 0 the file is no KeyDescription at all: the certificate, or "
               "another extension.";
    case 10:
        return "The encoder's maker. A level 2 in version 1 or 2 gives this too: those know no StrongBox.";
    case 11:
        return "The encoder's maker: version and fields do not belong together.";
    case 12:
        return "The encoder's maker. Fields ascend, and none stands twice.";
    case 13:
        return "The encoder's maker. DER sorts a set; none stands twice.";
    case 14:
        return "More than any key is made with: do not go on with it.";
    case 20:
        return "The caller. A record that was read is well-shaped: if it was not changed, the wrong bytes were "
               "lent with it.";
    case 21:
        return "The caller: lend a longer one; 8,192 bytes are always enough for an encoding, and 491,520 for "
               "a listing.";
    case 22:
        return "The caller: shorten the challenge or the octet fields.";
    case 30:
        return "The caller's request is wrong.";
    case 31:
        return "The key was made for something else. Use another key.";
    case 32:
        return "If the lists disagree, do not trust the attestation. Else another key.";
    case 33:
        return "The caller: ask for a padding that the key was made with.";
    case 34:
        return "The caller: ask for a digest that the key was made with.";
    case 35:
        return "A larger key, or a shorter digest.";
    case 36:
        return "The field engineer: set the clock, change the battery, and ask again. Nothing can be said "
               "about the date until then.";
    case 37:
        return "Wait; or, if that date has long passed elsewhere, set the clock.";
    case 38:
        return "A new key.";
    case 39:
        return "Do not use the key: its maker left it open who may.";
    case 40:
        return "The user: authenticate, by fingerprint or password as the key asks.";
    case 41:
        return "The user: authenticate again, for this very operation.";
    case 42:
        return "The user: unlock it.";
    case 43:
        return "The user: press the button, or whatever shows presence.";
    case 44:
        return "The user: confirm on the panel.";
    case 45:
        return "Restart, or use another key.";
    case 46:
        return "A new key.";
    case 50:
        return "An old or another panel's attestation: ask anew with a fresh challenge.";
    case 51:
        return "Do not take it on.";
    case 52:
        return "Do not take it on.";
    case 53:
        return "Lock it and make a new key, or send the panel back.";
    case 54:
        return "Install the maker's system and make a new key.";
    case 55:
        return "Make a new key in the device.";
    case 200:
        return "The caller: lend at least as many words as the header's constants say.";
    default:
        return "";
    }
}

#endif
