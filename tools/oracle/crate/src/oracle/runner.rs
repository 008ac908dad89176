//! Runs a script and writes its lines.
//!
//! A send reported failed concerns a call that has been answered already, but the crate's send fails inside of that call. So the script is started over with
//! that send failing: the lines up to the report are those of the run in which it worked, the lines from the report on those of the run in which it failed.
use super::calls::{Break, Call, Opening, Response, text};
use super::network::{self, Asked, Ruling};
use super::probe::{self, Views};
use super::records::{Format, Script};
use super::refusals::{self, Facts};
use super::session::{Phase, Session};
use super::{lines, sizes, wire};
use crate::google::storage::v2::BidiWriteObjectRequest;
use crate::storage::bidi_write::connector::oracle_accepts_bucket;
use std::collections::BTreeSet;

/// Where the crate can give no answer, the script's lines end in `?` and a reason.
const NOT_TEXT: &str = "? names and tokens of the crate are UTF-8";
const NOT_REPORTED: &str = "? a flush on a connection whose sends fail was not reported failed";
/// Not that it has none here: document 02 wants another.
const PAST_THE_END: &str = "? a size above the write offset ends the session, and the crate goes on";

/// Why a run goes no further.
enum End {
    NoAnswer,
    /// The send of this call was reported failed.
    Restart(usize),
}

pub fn run(script: &Script, format: Format) -> String {
    let mut failing = BTreeSet::new();
    let mut out = String::new();
    let mut print_from = 0;
    loop {
        let mut runner = Runner::new(&script.calls, format, &failing, print_from);
        runner.run();
        out.push_str(&runner.out);
        let Some(End::Restart(sender)) = runner.end else { break };
        print_from = runner.at;
        failing.insert(sender);
    }
    if script.whole {
        out.push('\n');
    }
    out
}

struct Runner<'a> {
    script: &'a [Call],
    format: Format,
    /// The calls whose send fails.
    failing: &'a BTreeSet<usize>,
    /// The lines before this call are known.
    print_from: usize,
    /// The call under way.
    at: usize,
    end: Option<End>,
    out: String,
    session: Option<Session>,
    facts: Facts,
    waiters_made: u64,
    /// Stored bytes before the call under way; before an opening those of its payload.
    stored: usize,
    /// The request that the last accepted call handed out.
    handed_out: Option<BidiWriteObjectRequest>,
    /// A verdict is awaited. The crate has asked for it and heard it already; until then its state is shown as it was when it asked.
    asked: Option<Asked>,
    /// A bare flush was answered on a connection whose sends fail. The crate has not marked it; the host has not reported it.
    unreported: bool,
}

impl<'a> Runner<'a> {
    fn new(script: &'a [Call], format: Format, failing: &'a BTreeSet<usize>, print_from: usize) -> Self {
        Runner {
            script,
            format,
            failing,
            print_from,
            at: 0,
            end: None,
            out: String::new(),
            session: None,
            facts: Facts::default(),
            waiters_made: 0,
            stored: 0,
            handed_out: None,
            asked: None,
            unreported: false,
        }
    }

    fn run(&mut self) {
        for (i, call) in self.script.iter().enumerate() {
            self.at = i;
            self.call(call);
            if self.end.is_some() {
                break;
            }
        }
    }

    fn session(&mut self) -> &mut Session {
        self.session.as_mut().expect("open")
    }

    // ---- lines

    fn prints(&self) -> bool {
        self.at >= self.print_from
    }

    fn line(&mut self, s: &str) {
        if self.prints() {
            self.out.push_str(s);
            self.out.push('\n');
        }
    }

    /// The answer of an accepted call, what it released, its request, and the state after it.
    fn answer(&mut self, answer: &str, request: Option<&BidiWriteObjectRequest>) {
        self.handed_out = request.cloned();
        self.answer_with(answer, [self.released(), request.map(lines::request)]);
    }

    /// The call ended the session, before which so many waited. The worker's last probe was before it failed those that were left.
    fn ends(&mut self, waiting: usize) {
        let failed = self::waiting();
        self.handed_out = None;
        self.answer_with("end", [self.released(), Some(format!("  en completed={} failed={failed}", waiting - failed))]);
    }

    /// The line of a call that acknowledges: the crate's own count before it less that after it. The last probe of a worker that ended was after it too.
    fn released(&self) -> Option<String> {
        let acknowledges = matches!(self.script[self.at], Call::Open(_) | Call::Response(_) | Call::Handshake(_));
        acknowledges.then(|| format!("  rl {}", self.stored - stored()))
    }

    fn answer_with(&mut self, answer: &str, more: [Option<String>; 2]) {
        let mark = self.script[self.at].mark();
        self.line(&format!("{mark} {answer}"));
        if self.format == Format::Bench || !self.prints() {
            return;
        }
        for more in more.into_iter().flatten() {
            self.line(&more);
        }
        let mut views = self.views();
        views.worker.mark |= self.unreported;
        let made = self.waiters_made;
        let session = self.session();
        let (phase, cause) = (session.phase, session.cause);
        let state = lines::state(phase, cause, &views, session.transport_view(), made);
        self.line(&state);
    }

    fn views(&self) -> Views {
        self.asked.as_ref().map_or_else(probe::views, |a| a.views.clone())
    }

    fn no_answer(&mut self, why: &str) {
        self.line(why);
        self.end = Some(End::NoAnswer);
    }

    // ---- calls

    fn call(&mut self, call: &Call) {
        match call {
            Call::Open(o) => self.open(o),
            _ if self.session.is_none() => {}
            Call::Append(bytes) => self.appends(bytes),
            Call::Flush | Call::Finalize => self.asks(call),
            Call::SendFailed => self.send_failed(call),
            Call::Write { buffer, data } => self.write(*buffer, *data),
            _ => self.other(call),
        }
    }

    /// Refusals 1 to 5 in order; the crate's own are the form test of 3, and 5.
    fn open(&mut self, o: &Opening) {
        if let Some(n) = refusals::limits_and_memory(o) {
            return self.refuse_opening(n);
        }
        if !o.is_text() {
            return self.no_answer(NOT_TEXT);
        }
        if refusals::bucket_too_long(o) || !oracle_accepts_bucket(&text(&o.bucket)) {
            return self.refuse_opening(3);
        }
        if refusals::opening_too_long(o) {
            return self.refuse_opening(4);
        }
        sizes::set(o.chunk as usize, o.asked_capacity() as usize);
        self.session = Session::open(o);
        if self.session.is_none() {
            return self.refuse_opening(5);
        }
        self.stored = o.payload.as_ref().map_or(0, Vec::len);
        self.facts = Facts { chunk: o.chunk as usize, slots: o.slots, out: o.out, ..Facts::default() };
        self.answer("ok", None);
    }

    fn refuse_opening(&mut self, n: u8) {
        self.line(&format!("OP E{n}"));
    }

    /// Whether the call goes on: it is not refused, and the crate can answer it. What an earlier call sent then no longer matters.
    fn accepts(&mut self, call: &Call) -> bool {
        let session = self.session();
        let phase = session.phase;
        let view = session.transport_view().clone();
        if let Some(n) = refusals::later(phase, &view, &self.facts, call) {
            self.answer_with(&format!("E{n}"), [None, None]);
            return false;
        }
        if self.unreported && !matches!(call, Call::SendFailed) {
            self.no_answer(NOT_REPORTED);
            return false;
        }
        if states_past(call, view.write_offset) {
            self.no_answer(PAST_THE_END);
            return false;
        }
        self.unreported = false;
        probe::take_sending();
        if self.failing.contains(&self.at) {
            self.session().break_sending();
        }
        true
    }

    /// Notes what the call sent, and gives its short form.
    fn sends(&mut self, request: Option<&BidiWriteObjectRequest>) -> String {
        self.facts.sender = request.map(|_| self.at);
        request.map_or("-".into(), lines::short)
    }

    /// In the bench format an append is called again till all is taken, or it is refused.
    fn appends(&mut self, bytes: &[u8]) {
        let mut rest = bytes;
        while let Some(taken) = self.append(rest) {
            rest = &rest[taken..];
            if rest.is_empty() || self.format == Format::Trace {
                break;
            }
        }
    }

    /// One append; the number of bytes taken, none where it is refused.
    fn append(&mut self, bytes: &[u8]) -> Option<usize> {
        if bytes.is_empty() {
            self.answer("0 -", None);
            return Some(0);
        }
        if !self.accepts(&Call::Append(bytes.to_vec())) {
            return None;
        }
        let chunk = self.facts.chunk;
        let session = self.session();
        let held = session.transport_view().held.len();
        let taken = bytes.len().min(chunk - held);
        let request = session.append(&bytes[..taken], held + taken == chunk);
        let sent = self.sends(request.as_ref());
        self.answer(&format!("{taken} {sent}"), request.as_ref());
        Some(taken)
    }

    /// Flush or finalise: in the bench format called again till it makes its waiter, or is refused.
    fn asks(&mut self, call: &Call) {
        while self.accepts(call) {
            if self.session().transport_view().held.is_empty() {
                return self.wait(call);
            }
            self.cut();
            if self.format == Format::Trace {
                return;
            }
        }
    }

    fn cut(&mut self) {
        let request = self.session().cut();
        let sent = self.sends(request.as_ref());
        self.answer(&sent, request.as_ref());
    }

    fn wait(&mut self, call: &Call) {
        let finalizes = matches!(call, Call::Finalize);
        let session = self.session();
        let request = if finalizes { session.finalize() } else { session.flush() };
        self.facts.closed |= finalizes;
        self.waiters_made += 1;
        let sent = self.sends(request.as_ref());
        self.answer(&format!("{sent} w{}", self.waiters_made), request.as_ref());
    }

    fn other(&mut self, call: &Call) {
        if !self.accepts(call) {
            return;
        }
        self.facts.sender = None;
        self.stored = stored();
        match call {
            Call::Close => self.close(),
            Call::Response(r) => self.respond(r),
            Call::Handshake(r) => self.handshake(r),
            Call::Break(b) => self.stream_break(b),
            Call::Verdict(verdict) => {
                let asked = self.asked.take().expect("a verdict is awaited");
                self.judged(*verdict, asked)
            }
            Call::FailedAttempt(verdict, b) => self.failed_attempt(*verdict, b),
            Call::Next => self.next(),
            Call::Open(_) | Call::Append(_) | Call::Flush | Call::Finalize | Call::SendFailed | Call::Write { .. } => unreachable!(),
        }
    }

    fn close(&mut self) {
        self.facts.closed = true;
        self.session().close();
        self.answer("ok", None)
    }

    fn respond(&mut self, r: &Response) {
        let waiting = waiting();
        let request = self.session().respond(r);
        if self.session().note_end(Ruling::Continue) {
            return self.ends(waiting);
        }
        let sent = self.sends(request.as_ref());
        self.unreported = request.is_some() && !self.session().sending_works();
        self.answer(&format!("{} {sent}", waiting - self::waiting()), request.as_ref());
    }

    fn handshake(&mut self, r: &Response) {
        let waiting = waiting();
        self.session().handshake(r);
        self.facts.replayed = 0;
        if self.session().note_end(Ruling::Continue) {
            return self.ends(waiting);
        }
        self.session().phase = Phase::Replay;
        self.answer(&(waiting - self::waiting()).to_string(), None);
    }

    /// The verdict on a break: the next valid one, because until then every call is refused or an append that cuts nothing.
    fn coming_verdict(&self) -> u8 {
        let valid = |c: &Call| if let Call::Verdict(v @ 1..=4) = c { Some(*v) } else { None };
        self.script[self.at..].iter().find_map(valid).unwrap_or(2)
    }

    fn stream_break(&mut self, b: &Break) {
        network::set_verdict(self.coming_verdict());
        self.session().stream_break(b);
        let Some(mut asked) = network::take_asked() else {
            assert!(self.session().note_end(Ruling::Continue), "a break without a verdict ends");
            return self.ends(waiting());
        };
        if asked.attempts > 0 {
            asked.views.attempts = asked.attempts;
            probe::note_attempts(asked.attempts);
        }
        let attempts = asked.attempts.to_string();
        self.asked = Some(asked);
        self.session().phase = Phase::Verdict;
        self.answer(&attempts, None);
    }

    fn failed_attempt(&mut self, verdict: u8, b: &Break) {
        network::set_verdict(verdict);
        self.session().failed_attempt(b);
        let asked = network::take_asked().expect("the crate asks");
        self.judged(verdict, asked);
    }

    fn judged(&mut self, verdict: u8, asked: Asked) {
        if verdict == 4 {
            self.session().give_up();
            return self.ends(waiting());
        }
        if self.session().note_end(asked.ruling) {
            return self.ends(waiting());
        }
        assert!(asked.ruling == Ruling::Continue && network::attempt_waits(), "the crate connects");
        self.session().phase = Phase::Connecting;
        self.answer("go", None);
    }

    fn next(&mut self) {
        let request = self.session().next();
        // A failing send leaves nothing to see; what it would have sent is known from the run before.
        if request.is_none() && !self.failing.contains(&self.at) {
            self.session().phase = Phase::Live;
            return self.answer("done", None);
        }
        let sent = self.sends(request.as_ref());
        self.facts.replayed += 1;
        self.facts.sender = Some(self.at);
        self.answer(&sent, request.as_ref());
    }

    fn send_failed(&mut self, call: &Call) {
        let sender = self.facts.sender;
        if !self.accepts(call) {
            return;
        }
        if self.session().sending_works() {
            self.end = sender.map(End::Restart);
            return;
        }
        self.facts.sender = None;
        if self.session().phase == Phase::Replay {
            self.session().next();
            self.session().phase = Phase::Live;
        }
        self.answer("ok", None);
    }

    /// Neither accepted nor refused as a call is, so that it is nothing between a send and its failure. At most the out buffer is lent.
    fn write(&mut self, buffer: usize, data: usize) {
        let lent = data.min(self.facts.out);
        let written = self.handed_out.as_ref().map(|r| wire::write(r, buffer, lent));
        match written {
            None => self.line("WB -"),
            Some(None) => self.line("WB E14"),
            Some(Some(bytes)) => self.line(&format!("WB {}\n  wb {}", bytes.len(), lines::hex(&bytes))),
        }
    }
}

/// Whether the call brings a size above the write offset. P is never above that, so such a size is no regress.
fn states_past(call: &Call, write_offset: i64) -> bool {
    match call {
        Call::Response(r) | Call::Handshake(r) => r.size().is_some_and(|size| size > write_offset),
        _ => false,
    }
}

/// How many wait.
fn waiting() -> usize {
    probe::worker(|w| w.waiters.len())
}

/// How many bytes the crate counts as unpersisted.
fn stored() -> usize {
    probe::worker(|w| w.stored)
}
