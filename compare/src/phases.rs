//! What a module that waits makes of fingers and seconds.

use crate::administrators::Right;
use crate::codes::{Code, EnrollFlag};
use crate::line::Line;
use crate::matcher::Matcher;
use crate::memory::Memory;
use crate::module::{Awaited, Enrollment, Module, Waiting};
use crate::search::{remove_all_of, Found, IdRange};
use crate::settings::{EnrollMode, Switch};

/// The least and the best quality of a scan.
const LEAST_QUALITY: u8 = 30;
const BEST_QUALITY: u8 = 100;

/// What a good scan leads to, if it does not end the request with a failure.
enum Decision {
    /// Another finger is awaited.
    Awaits(Awaited),
    /// CONTINUE with the administrator's ID in Param, and another finger is awaited.
    Granted(u16, Awaited),
    /// SUCCESS with an ID in Param, and a number in Size.
    Success(u16, u32),
}

impl<M: Matcher, S: Memory> Module<M, S> {
    /// A finger has been scanned.
    pub(crate) fn take_scan(&mut self, scan: &[u8], quality: u8, line: &mut Line) {
        let Some(waiting) = self.waiting.take() else {
            return;
        };
        if scan.len() != S::T || quality > BEST_QUALITY {
            return waiting.tell(line, Code::ScanFail);
        }
        if quality < LEAST_QUALITY {
            return waiting.tell(line, Code::TryAgain);
        }
        if self.settings.scans == Switch::On {
            waiting.tell(line, Code::ScanSuccess);
        }
        match self.decide(waiting.awaited, scan, quality) {
            Ok(Decision::Awaits(next)) => self.go_on(waiting, next),
            Ok(Decision::Granted(id, next)) => {
                waiting.say(line, u32::from(id), 0, Code::Continue);
                self.go_on(waiting, next);
            }
            Ok(Decision::Success(id, size)) => {
                waiting.say(line, u32::from(id), size, Code::Success);
            }
            Err(code) => waiting.tell(line, code),
        }
    }

    /// A second has passed.
    pub(crate) fn tick(&mut self, line: &mut Line) {
        let Some(waiting) = &mut self.waiting else {
            return;
        };
        match waiting.left {
            0 => {}
            1 => {
                waiting.tell(line, Code::TimeOut);
                self.waiting = None;
            }
            _ => waiting.left -= 1,
        }
    }

    /// The request goes on to wait for another finger.
    fn go_on(&mut self, waiting: Waiting, next: Awaited) {
        self.wait_for(next, waiting.command, waiting.form);
    }

    /// A good scan, by what is awaited.
    fn decide(&mut self, awaited: Awaited, scan: &[u8], quality: u8) -> Result<Decision, Code> {
        match awaited {
            Awaited::GrantToEnroll(enrollment) => {
                self.grant(Right::Enroll, Awaited::FirstFinger(enrollment), scan)
            }
            Awaited::GrantToDelete(range) => {
                self.grant(Right::Delete, Awaited::PersonToDelete(range), scan)
            }
            Awaited::FirstFinger(enrollment) => self.first_finger(enrollment, scan, quality),
            Awaited::SecondFinger(enrollment, first) => {
                self.second_finger(enrollment, first, scan, quality)
            }
            Awaited::PersonToVerify(id) => {
                let found = self.find(|held| held == id, scan);
                found.map(Decision::person).ok_or(Code::NotMatch)
            }
            Awaited::PersonToIdentify(range) => {
                let found = self.find(|held| range.contains(held), scan);
                found.map(Decision::person).ok_or(Code::NotFound)
            }
            Awaited::PersonToDelete(range) => self.person_to_delete(range, scan),
        }
    }

    /// The oldest template that agrees, of the IDs that are allowed.
    fn find(&self, allows: impl Fn(u16) -> bool, scan: &[u8]) -> Option<Found> {
        self.search(scan).oldest(&self.memory, allows)
    }

    /// Whether the flag wants a finger that is not held yet, and it is held.
    pub(crate) fn is_held(&self, flag: EnrollFlag, scan: &[u8]) -> bool {
        flag == EnrollFlag::CheckFinger && self.find(|_| true, scan).is_some()
    }

    /// ESA and DSA: an administrator who has the right lets the request go on.
    fn grant(&self, right: Right, next: Awaited, scan: &[u8]) -> Result<Decision, Code> {
        let found = self.find(|id| self.admins.may(id, right), scan);
        let administrator = found.ok_or(Code::NotMatch)?;
        Ok(Decision::Granted(administrator.id, next))
    }

    /// ES, ESA: the first finger.
    fn first_finger(
        &mut self,
        enrollment: Enrollment,
        scan: &[u8],
        quality: u8,
    ) -> Result<Decision, Code> {
        if self.is_held(enrollment.flag, scan) {
            return Err(Code::ExistFinger);
        }
        if self.settings.enroll == EnrollMode::Once {
            enroll(&mut self.memory, enrollment, &[scan]);
            return Ok(Decision::Success(enrollment.id, u32::from(quality)));
        }
        self.first[..S::T].copy_from_slice(scan);
        Ok(Decision::Awaits(Awaited::SecondFinger(enrollment, quality)))
    }

    /// ES, ESA: the second finger, compared with the first as stored.
    fn second_finger(
        &mut self,
        enrollment: Enrollment,
        first_quality: u8,
        scan: &[u8],
        quality: u8,
    ) -> Result<Decision, Code> {
        let first = &self.first[..S::T];
        if !self.search(scan).agrees(first) {
            return Err(Code::TryAgain);
        }
        if self.settings.enroll == EnrollMode::TwoTemplates {
            enroll(&mut self.memory, enrollment, &[first, scan]);
        } else if quality > first_quality {
            enroll(&mut self.memory, enrollment, &[scan]);
        } else {
            enroll(&mut self.memory, enrollment, &[first]);
        }
        let best = first_quality.max(quality);
        Ok(Decision::Success(enrollment.id, u32::from(best)))
    }

    /// DSA: the person's templates go, unless it is an administrator.
    fn person_to_delete(&mut self, range: IdRange, scan: &[u8]) -> Result<Decision, Code> {
        let found = self.find(|id| range.contains(id), scan);
        let id = found.ok_or(Code::NotFound)?.id;
        if self.admins.contains(id) {
            return Err(Code::Unsupported);
        }
        remove_all_of(&mut self.memory, id);
        Ok(Decision::Success(id, 0))
    }
}

impl Decision {
    /// SUCCESS with the ID and the number of a template.
    fn person(found: Found) -> Decision {
        Decision::Success(found.id, found.number as u32)
    }
}

/// Enrols templates, the first before the second. That there is room was tested when the request came.
pub(crate) fn enroll<S: Memory>(memory: &mut S, enrollment: Enrollment, templates: &[&[u8]]) {
    if enrollment.flag == EnrollFlag::Replace {
        remove_all_of(memory, enrollment.id);
    }
    for template in templates {
        let added = memory.add(enrollment.id, template);
        debug_assert!(added.is_ok());
    }
}
