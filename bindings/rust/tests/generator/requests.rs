//! Requests near the edges of the checks, and records that let them get far.

use super::records::well_shaped;
use super::Random;
use crate::reference::rule::{self, Request, Token};
use crate::reference::table::{self, TOP_32};
use crate::reference::{Record, Value};

/// How a request and its record are made: nearly always so that a check is passed, at times so that it just is not.
struct Aim<'a> {
    random: &'a mut Random,
    record: Record,
}

/// A record and a request that it nearly permits.
pub fn aimed(random: &mut Random) -> (Record, Request) {
    let mut record = well_shaped(random).record;
    if random.below(4) > 0 {
        record.version = random.pick(&[4, 100, 200, 300]);
    }
    // Only what is aimed at stays, so that a tag of chance does not refuse first.
    record.software.clear();
    record.hardware.clear();
    let mut aim = Aim { random, record };
    let request = aim.request();
    let Aim { record, .. } = aim;
    (record, request)
}

impl Aim<'_> {
    /// A near miss: rare enough for the later checks to be reached.
    fn misses(&mut self) -> bool {
        self.random.once_in(28)
    }

    /// Puts a tag into one list or both, each with its own value.
    fn put(&mut self, tag: u64, mut value: impl FnMut(&mut Random) -> Value) {
        if !table::holds(self.record.version, tag) {
            return;
        }
        let lists: &[bool] = self.random.pick(&[&[false][..], &[true][..], &[false, true][..]]);
        for &hardware in lists {
            let value = value(self.random);
            self.record.list_mut(hardware).insert(tag, value);
        }
    }

    fn maybe_put(&mut self, tag: u64, value: impl FnMut(&mut Random) -> Value) {
        if self.random.once_in(3) {
            self.put(tag, value);
        }
    }

    fn request(&mut self) -> Request {
        let mut request = Request::default();
        self.purpose(&mut request);
        self.shape(&mut request);
        self.dates(&mut request);
        self.authentication(&mut request);
        self.circumstances(&mut request);
        request
    }

    fn purpose(&mut self, request: &mut Request) {
        request.purpose = self.random.pick(&[rule::DECRYPT, rule::SIGN, rule::SIGN, rule::AGREE_KEY, rule::ATTEST_KEY]);
        if self.misses() {
            request.purpose = self.random.pick(&[0, 3, 4, 5, 8, 1 << 32, 2 + (1 << 32), u64::MAX]);
        }
        self.put_set(rule::PURPOSE, request.purpose);
    }

    /// A set that has the wanted member, mostly.
    fn put_set(&mut self, tag: u64, wanted: u64) {
        if self.misses() {
            return;
        }
        let misses = self.misses();
        self.put(tag, |random| {
            let others = (0..random.below(4)).map(|_| random.number(9));
            let mut members: Vec<u64> = others.collect();
            members.push(wanted.min(TOP_32));
            members.sort();
            members.dedup();
            if misses && random.flip() {
                members.retain(|&member| member != wanted);
            }
            Value::Set(members)
        });
    }

    fn shape(&mut self, request: &mut Request) {
        let algorithm = match request.purpose {
            rule::DECRYPT => rule::RSA,
            rule::AGREE_KEY => rule::EC,
            _ => self.random.pick(&[rule::RSA, rule::EC]),
        };
        self.algorithm(algorithm);
        let is_signing_rsa = algorithm == rule::RSA && request.purpose == rule::SIGN;
        request.padding = match (algorithm, request.purpose) {
            (rule::RSA, rule::SIGN) => self.random.pick(&[1, 3, 3, 5]),
            (rule::RSA, rule::DECRYPT) => self.random.pick(&[1, 2, 4]),
            _ => 1,
        };
        request.digest = match (is_signing_rsa, request.padding) {
            (true, 1) => 0,
            (_, 2 | 3) => self.random.between(1, 6) as u64,
            _ => self.random.between(0, 6) as u64,
        };
        if self.misses() {
            request.padding = self.random.pick(&[0, 1, 2, 3, 4, 5, 6, 1 + (1 << 32)]);
        }
        if self.misses() {
            request.digest = self.random.pick(&[0, 1, 2, 3, 4, 5, 6, 7, 4 + (1 << 32)]);
        }
        self.put_set(rule::PADDING, request.padding);
        self.put_set(rule::DIGEST, request.digest);
        self.key_size(request.digest);
    }

    fn algorithm(&mut self, algorithm: u64) {
        if self.misses() {
            return;
        }
        let misses = self.misses();
        self.put(rule::ALGORITHM, |random| match misses {
            true => Value::Number(random.pick(&[0, 1, 2, 3, 4, 32])),
            false => Value::Number(algorithm),
        });
    }

    fn key_size(&mut self, digest: u64) {
        if self.random.once_in(8) {
            return;
        }
        let least = 8 * (2 * rule::digest_bytes(digest) + 1) + 1;
        let misses = self.misses();
        self.put(rule::KEY_SIZE, |random| match random.below(3) {
            0 if misses => Value::Number(least - 1),
            1 => Value::Number(random.pick(&[2048, TOP_32, TOP_32 - 7])),
            _ => Value::Number(least + random.word() % 9),
        });
    }

    fn dates(&mut self, request: &mut Request) {
        let clock = self.random.pick(&[0, 1, 1_609_459_200_000, u64::MAX - 1, u64::MAX]);
        request.clock = self.random.beside(clock);
        let clock = request.clock;
        request.floor = match self.misses() {
            true => clock.wrapping_add(1),
            false => clock - self.random.word() % 2.min(clock.saturating_add(1)),
        };
        let misses = self.misses();
        self.maybe_put(rule::ACTIVE, |random| match misses && random.flip() {
            true => Value::Number(clock.wrapping_add(1)),
            false => Value::Number(clock - random.word() % 2.min(clock.saturating_add(1))),
        });
        for tag in [rule::ORIGINATION_EXPIRY, rule::USAGE_EXPIRY] {
            let misses = self.misses();
            self.maybe_put(tag, |random| match misses && random.flip() {
                true => Value::Number(clock.wrapping_sub(1)),
                false => Value::Number(clock.saturating_add(random.word() % 2)),
            });
        }
        // The creation date is no date tag.
        self.maybe_put(701, |random| Value::Number(random.number(u64::MAX)));
    }

    fn authentication(&mut self, request: &mut Request) {
        if !self.misses() && self.random.flip() {
            self.put(rule::NO_AUTH, |_| Value::Yes);
        }
        let bit = 1u64 << self.random.below(32);
        let needs_token = !self.record.lists().into_iter().any(|list| list.contains_key(&rule::NO_AUTH));
        if (needs_token && !self.misses()) || self.random.once_in(3) {
            let misses = self.misses();
            self.put(rule::AUTH_TYPE, |random| {
                let others = random.word() & TOP_32;
                Value::Number(if misses { others & !bit } else { others & random.word() | bit })
            });
        }
        request.token = Token { there: !self.misses(), kind: bit, ..Token::default() };
        if self.random.flip() {
            request.token.kind |= self.random.word() & !TOP_32;
        }
        if self.misses() {
            request.token.kind &= !bit;
        }
        request.handle = self.random.number(u64::MAX);
        request.token.challenge = request.handle;
        if self.misses() {
            request.token.challenge = request.handle ^ (1 << self.random.below(64));
        }
        self.token_time(request);
    }

    fn token_time(&mut self, request: &mut Request) {
        let seconds = self.random.number(TOP_32);
        let oldest = 1000 * seconds;
        request.token.time = self.random.number(1 << 62);
        let age = match self.random.below(6) {
            0 => 0,
            1 => oldest.saturating_sub(1),
            _ if self.misses() => oldest + 1,
            _ => oldest,
        };
        request.uptime = request.token.time + age;
        if self.misses() {
            request.uptime = request.token.time.saturating_sub(1);
        }
        let both_count = self.random.flip();
        self.maybe_put(rule::AUTH_TIMEOUT, |random| {
            Value::Number(if both_count { seconds } else { seconds.saturating_add(random.word() % 2).min(TOP_32) })
        });
        if self.random.once_in(12) {
            // Where no timeout is stated the time does not count.
            request.uptime = self.random.number(u64::MAX);
        }
    }

    fn circumstances(&mut self, request: &mut Request) {
        for tag in [rule::UNLOCKED, rule::PRESENCE, rule::CONFIRMATION, rule::EARLY_BOOT] {
            self.maybe_put(tag, |_| Value::Yes);
        }
        request.locked = self.random.once_in(20);
        request.present = !self.random.once_in(20);
        request.confirmed = !self.random.once_in(20);
        request.early_boot_over = self.random.once_in(20);
        let limit = self.random.number(TOP_32).max(1);
        request.uses = if self.random.once_in(12) { limit } else { limit - 1 };
        if self.random.once_in(60) {
            request.uses = self.random.number(u64::MAX);
        }
        self.maybe_put(rule::USE_LIMIT, |random| Value::Number(limit.saturating_add(random.word() % 2).min(TOP_32)));
    }
}

/// A request that takes its values from the record's own, or from beside them.
pub fn near(record: &Record, random: &mut Random) -> Request {
    let numbers = |tag: u64| -> Vec<u64> {
        let values = record.lists().into_iter().filter_map(|list| list.get(&tag));
        values.filter_map(|value| if let Value::Number(number) = value { Some(*number) } else { None }).collect()
    };
    let members = |tag: u64| -> Vec<u64> {
        let values = record.lists().into_iter().filter_map(|list| list.get(&tag));
        values
            .filter_map(|value| if let Value::Set(members) = value { Some(members.clone()) } else { None })
            .flatten()
            .collect()
    };
    let mut own = |values: Vec<u64>, top: u64| match values.is_empty() || random.once_in(6) {
        true => random.number(top),
        false => {
            let value = random.pick(&values);
            random.beside(value)
        }
    };
    let mut request = Request {
        purpose: own(members(rule::PURPOSE), 8),
        digest: own(members(rule::DIGEST), 8),
        padding: own(members(rule::PADDING), 8),
        clock: own([400, 401, 402].into_iter().flat_map(numbers).collect(), u64::MAX),
        floor: own(numbers(400), u64::MAX),
        uses: own(numbers(rule::USE_LIMIT), u64::MAX),
        uptime: own(numbers(rule::AUTH_TIMEOUT).iter().map(|seconds| seconds.saturating_mul(1000)).collect(), u64::MAX),
        handle: own(vec![], u64::MAX),
        token: Token { kind: own(numbers(rule::AUTH_TYPE), u64::MAX), ..Token::default() },
        ..Request::default()
    };
    if random.below(4) > 0 {
        request.purpose = random.pick(&[rule::DECRYPT, rule::SIGN, rule::AGREE_KEY, rule::ATTEST_KEY]);
    }
    request.token.there = random.below(4) > 0;
    request.token.time = random.pick(&[0, 1, request.uptime, request.uptime.wrapping_add(1)]);
    request.token.challenge = random.beside(request.handle);
    request.locked = random.flip();
    request.present = random.flip();
    request.confirmed = random.flip();
    request.early_boot_over = random.flip();
    request
}

/// The request as the library takes it; a yes is any word that is not 0.
pub fn words(request: &Request, random: &mut Random) -> Vec<u64> {
    let mut yes = |is: bool| if is { random.pick(&[1, 1, 2, 1 << 32, 1 << 63, u64::MAX]) } else { 0 };
    let token = request.token;
    vec![
        request.purpose,
        request.digest,
        request.padding,
        request.clock,
        request.floor,
        request.uptime,
        request.handle,
        yes(token.there),
        token.kind,
        token.time,
        token.challenge,
        yes(request.locked),
        yes(request.present),
        yes(request.confirmed),
        yes(request.early_boot_over),
        request.uses,
    ]
}
