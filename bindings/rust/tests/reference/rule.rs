//! The use ruling.

use super::model::{refused, Record, Refusal, Value};
use super::table::is_well_shaped;

pub const PURPOSE: u64 = 1;
pub const ALGORITHM: u64 = 2;
pub const KEY_SIZE: u64 = 3;
pub const DIGEST: u64 = 5;
pub const PADDING: u64 = 6;
pub const EARLY_BOOT: u64 = 305;
pub const ACTIVE: u64 = 400;
pub const ORIGINATION_EXPIRY: u64 = 401;
pub const USAGE_EXPIRY: u64 = 402;
pub const USE_LIMIT: u64 = 405;
pub const NO_AUTH: u64 = 503;
pub const AUTH_TYPE: u64 = 504;
pub const AUTH_TIMEOUT: u64 = 505;
pub const PRESENCE: u64 = 507;
pub const CONFIRMATION: u64 = 508;
pub const UNLOCKED: u64 = 509;

pub const DECRYPT: u64 = 1;
pub const SIGN: u64 = 2;
pub const AGREE_KEY: u64 = 6;
pub const ATTEST_KEY: u64 = 7;
pub const RSA: u64 = 1;
pub const EC: u64 = 3;

#[derive(Clone, Copy, Debug, Default, PartialEq, Eq)]
pub struct Token {
    pub there: bool,
    pub kind: u64,
    pub time: u64,
    pub challenge: u64,
}

#[derive(Clone, Copy, Debug, Default, PartialEq, Eq)]
pub struct Request {
    pub purpose: u64,
    pub digest: u64,
    pub padding: u64,
    pub clock: u64,
    pub floor: u64,
    pub uptime: u64,
    pub handle: u64,
    pub token: Token,
    pub locked: bool,
    pub present: bool,
    pub confirmed: bool,
    pub early_boot_over: bool,
    pub uses: u64,
}

#[derive(Clone, Copy, Debug, PartialEq, Eq)]
pub struct Permit {
    pub hardware: u64,
    pub software: u64,
}

pub fn rule(record: &Record, request: &Request) -> Result<Permit, Refusal> {
    if !is_well_shaped(record) {
        return refused(20, 0);
    }
    let case = Case { record, request };
    match case.checks().into_iter().find(|(_, refuses)| *refuses) {
        Some((number, _)) => refused(number, 0),
        None => Ok(case.permit()),
    }
}

/// Digest lengths in bytes, for digests 1 to 6.
pub fn digest_bytes(digest: u64) -> u64 {
    match digest {
        1 => 16,
        2 => 20,
        3 => 28,
        4 => 32,
        5 => 48,
        6 => 64,
        _ => 0,
    }
}

/// Check 35's fault: a key too small for RSA PSS with this digest.
pub fn key_is_too_small(bits: u64, digest: u64) -> bool {
    bits.div_ceil(8) < 2 * digest_bytes(digest) + 2
}

struct Case<'a> {
    record: &'a Record,
    request: &'a Request,
}

impl Case<'_> {
    /// The checks in their order. Each is judged by itself: only the order decides which is reported.
    fn checks(&self) -> [(u64, bool); 17] {
        let request = self.request;
        [
            (30, ![DECRYPT, SIGN, AGREE_KEY, ATTEST_KEY].contains(&request.purpose)),
            (31, !self.sets_allow(PURPOSE, request.purpose)),
            (32, !self.algorithm_is_right()),
            (33, self.looks_at_padding() && !(self.padding_fits() && self.sets_allow(PADDING, request.padding))),
            (34, self.looks_at_digest() && !(self.digest_fits() && self.sets_allow(DIGEST, request.digest))),
            (35, self.looks_at_key_size() && self.key_size_refuses()),
            (36, self.a_date_applies() && request.clock < request.floor),
            (37, self.numbers(ACTIVE).iter().any(|&active| request.clock < active)),
            (38, self.numbers(self.expiry()).iter().any(|&expiry| request.clock > expiry)),
            (39, !self.has(NO_AUTH) && !self.has(AUTH_TYPE)),
            (40, self.has(AUTH_TYPE) && self.token_type_refuses()),
            (41, self.has(AUTH_TYPE) && self.token_time_refuses()),
            (42, self.has(UNLOCKED) && request.locked),
            (43, self.has(PRESENCE) && !request.present),
            (44, self.has(CONFIRMATION) && !request.confirmed),
            (45, self.has(EARLY_BOOT) && request.early_boot_over),
            (46, self.numbers(USE_LIMIT).iter().any(|&limit| request.uses >= limit)),
        ]
    }

    fn has(&self, tag: u64) -> bool {
        self.record.lists().into_iter().any(|list| list.contains_key(&tag))
    }

    /// A number tag's values, of each list that has it.
    fn numbers(&self, tag: u64) -> Vec<u64> {
        let values = self.record.lists().into_iter().filter_map(|list| list.get(&tag));
        values.filter_map(|value| if let Value::Number(number) = value { Some(*number) } else { None }).collect()
    }

    fn sets_allow(&self, tag: u64, wanted: u64) -> bool {
        let values = self.record.lists().into_iter().filter_map(|list| list.get(&tag));
        let has_member = |value: &Value| matches!(value, Value::Set(members) if members.contains(&wanted));
        self.has(tag) && values.into_iter().all(has_member)
    }

    /// The algorithm that both lists agree on, if any has it.
    fn algorithm(&self) -> Option<u64> {
        let values = self.numbers(ALGORITHM);
        let first = *values.first()?;
        values.iter().all(|&value| value == first).then_some(first)
    }

    fn algorithm_is_right(&self) -> bool {
        match self.algorithm() {
            Some(RSA) => [DECRYPT, SIGN, ATTEST_KEY].contains(&self.request.purpose),
            Some(EC) => [SIGN, AGREE_KEY, ATTEST_KEY].contains(&self.request.purpose),
            _ => false,
        }
    }

    fn is_rsa(&self) -> bool {
        self.algorithm() == Some(RSA)
    }

    fn looks_at_padding(&self) -> bool {
        [SIGN, DECRYPT].contains(&self.request.purpose)
    }

    fn padding_fits(&self) -> bool {
        let fitting: &[u64] = match (self.is_rsa(), self.request.purpose) {
            (true, SIGN) => &[1, 3, 5],
            (true, DECRYPT) => &[1, 2, 4],
            _ => &[1],
        };
        fitting.contains(&self.request.padding)
    }

    fn looks_at_digest(&self) -> bool {
        match self.request.purpose {
            SIGN => true,
            DECRYPT => ![1, 4].contains(&self.request.padding),
            _ => false,
        }
    }

    fn digest_fits(&self) -> bool {
        let digest = self.request.digest;
        match (self.is_rsa(), self.request.purpose, self.request.padding) {
            (true, SIGN, 1) => digest == 0,
            (true, SIGN, 3) | (true, DECRYPT, 2) => (1..=6).contains(&digest),
            _ => digest <= 6,
        }
    }

    fn looks_at_key_size(&self) -> bool {
        self.is_rsa() && self.request.purpose == SIGN && self.request.padding == 3
    }

    fn key_size_refuses(&self) -> bool {
        let sizes = self.numbers(KEY_SIZE);
        sizes.is_empty() || sizes.iter().any(|&bits| key_is_too_small(bits, self.request.digest))
    }

    /// The expiry date that applies to the purpose.
    fn expiry(&self) -> u64 {
        if [SIGN, ATTEST_KEY].contains(&self.request.purpose) {
            ORIGINATION_EXPIRY
        } else {
            USAGE_EXPIRY
        }
    }

    fn a_date_applies(&self) -> bool {
        self.has(ACTIVE) || self.has(self.expiry())
    }

    fn token_type_refuses(&self) -> bool {
        let token = self.request.token;
        !token.there || self.numbers(AUTH_TYPE).iter().any(|kind| kind & token.kind == 0)
    }

    fn token_time_refuses(&self) -> bool {
        let Request { token, uptime, handle, .. } = *self.request;
        if !self.has(AUTH_TIMEOUT) {
            return token.challenge != handle;
        }
        let is_too_old = |seconds: &u64| uptime.saturating_sub(token.time) > 1000 * seconds;
        token.time > uptime || self.numbers(AUTH_TIMEOUT).iter().any(is_too_old)
    }

    /// The tags of the marks' bits, from bit 0, and whether each was looked at.
    fn looked_at(&self) -> [(u64, bool); 16] {
        let auth = self.has(AUTH_TYPE);
        [
            (PURPOSE, true),
            (ALGORITHM, true),
            (PADDING, self.looks_at_padding()),
            (DIGEST, self.looks_at_digest()),
            (KEY_SIZE, self.looks_at_key_size()),
            (ACTIVE, true),
            (ORIGINATION_EXPIRY, self.expiry() == ORIGINATION_EXPIRY),
            (USAGE_EXPIRY, self.expiry() == USAGE_EXPIRY),
            (AUTH_TYPE, true),
            (AUTH_TIMEOUT, auth),
            (UNLOCKED, true),
            (PRESENCE, true),
            (CONFIRMATION, true),
            (EARLY_BOOT, true),
            (USE_LIMIT, true),
            (NO_AUTH, !auth),
        ]
    }

    fn mark(&self, hardware: bool) -> u64 {
        let list = self.record.list(hardware);
        let bits = self.looked_at().into_iter().enumerate();
        bits.filter(|(_, (tag, looked_at))| *looked_at && list.contains_key(tag)).map(|(bit, _)| 1 << bit).sum()
    }

    fn permit(&self) -> Permit {
        let (hardware, software) = (self.mark(true), self.mark(false));
        if self.record.has_software_level() {
            return Permit { hardware: 0, software: hardware | software };
        }
        Permit { hardware, software }
    }
}
