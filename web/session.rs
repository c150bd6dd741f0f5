//! A session for a host that can't wait for the next line, like a web page: the bench of `live` is
//! kept from one run of the program to the next. The first run opens it, by the arguments of `live`;
//! each further run answers the lines on standard input. This file isn't proved.
//!
//! tools/web adds this module to the program, whose `main` then begins with `answer`.
//! (Its name ends in .rs here, because each .rt file of the repository belongs to a crate.)

use crate::arguments::{Asked, Request, read_words};
use lin_live::{AnswerFormat, Hand};
use lin_tool::{
    Described, Encodings, Extras, Fault, Format, Notes, Opened, Settings, bench_in_hand,
    cluster_of_file, exit_status, opening_table, write_fault,
};
use std::env::Env;
use std::fs::Files;
use std::io::{self, Write};
use std::process::ExitCode;

unsafe extern "C" {
    /// Whether the host asks for a session: 1, or 0 for a run of the program.
    safe fn linsim_is_session() -> i32;
    /// The bench that is kept, or null.
    safe fn linsim_kept() -> *mut u8;
    safe fn linsim_keep(at: *mut u8);
}

/// Returns the bench of these settings, on which no line was made.
fn bench_of<R: AllocGlobal + Files>(
    rt: &R,
    settings: &Settings<'_>,
    notes: &mut Notes<'_>,
) -> Result<Hand, Fault> {
    let encodings = if settings.is_physical {
        Encodings::Told
    } else {
        Encodings::Read
    };
    let extras = Extras {
        encodings,
        is_linted: false,
        is_configured: settings.is_configured,
    };
    let (file, reading) = (settings.file, settings.reading);
    let Described {
        cluster,
        coded,
        limits,
    } = cluster_of_file(rt, file, reading, extras, notes)?;
    let table = opening_table(&cluster, settings.table)?;
    let format = match settings.format {
        Format::Named => AnswerFormat::Named,
        _ => AnswerFormat::Log,
    };
    let opened = Opened {
        cluster,
        table,
        coded,
        limits,
        settings: *settings,
    };
    bench_in_hand(rt.alloc(), opened, format)
}

/// Opens the bench and keeps it.
fn open<R: AllocGlobal + Env + Files>(rt: &R) -> Result<(), Fault> {
    let alloc = rt.alloc();
    let words: Vec<String> = match std::env::args(rt) {
        Ok(all) => all.collect(alloc)?,
        Err(_) => return Err(Fault::ReadFailed),
    };
    match read_words(alloc, words.as_slice()) {
        Ok(Some(Asked {
            request: Request::Live(settings),
            wanted,
            levels: _levels,
            given: _given,
            scripts: _scripts,
        })) => {
            let mut notes = Notes::new(alloc, wanted);
            let hand = bench_of(rt, &settings, &mut notes)?;
            let (at, _) = Box::into_raw_with_allocator(Box::new(alloc, hand)?);
            linsim_keep(at.cast::<u8>());
            Ok(())
        }
        _ => Err(Fault::ReadFailed),
    }
}

/// Answers the lines on standard input.
fn answer_lines<R: AllocGlobal + Input + Print>(rt: &R, hand: &mut Hand) -> Result<(), Fault> {
    match lin_live::live(rt.alloc(), hand, &mut rt.reader(), &mut io::writer(rt)) {
        Ok(()) => Ok(()),
        Err(fault) => Err(Fault::from(fault)),
    }
}

/// Returns the exit status of a run of the session, or `None` if the host asks for no session.
pub(crate) fn answer<R: AllocGlobal + Env + Files + Input + Print, W: Write>(
    rt: &R,
    errors: &mut W,
) -> Option<ExitCode> {
    if linsim_is_session() == 0 {
        return None;
    }
    let at = linsim_kept().cast::<Hand>();
    let done = if at.is_null() {
        open(rt)
    } else {
        answer_lines(rt, unsafe { &mut *at })
    };
    if let Err(fault) = &done {
        let _ = write_fault(fault, errors);
    }
    Some(ExitCode::from(exit_status(&done)))
}
