//! The crate clap, called as the source calls the toolchain's port of it. There, memory may be refused, so calls that
//! take some return a result; commands and matches borrow their texts; and a getter returns a value, not a reference.
use std::convert::Infallible;

pub(crate) use ::clap::{value_parser, ArgAction};

pub(crate) mod error {
    pub(crate) use super::ErrorKind;
}

pub(crate) type Arg<'a> = ::clap::Arg;
pub(crate) type Command<'a> = Builder;
pub(crate) type ArgMatches<'a> = Matches;

/// The kinds of errors that the source tells apart.
#[allow(dead_code)] // Where memory is refused, the program ends before clap could say so.
pub(crate) enum ErrorKind {
    DisplayHelp,
    DisplayVersion,
    OutOfMemory,
    Refused,
}

/// Help, the version, or why the words are refused.
pub(crate) struct Error(::clap::Error);

impl Error {
    pub(crate) fn kind(&self) -> ErrorKind {
        match self.0.kind() {
            ::clap::error::ErrorKind::DisplayHelp => ErrorKind::DisplayHelp,
            ::clap::error::ErrorKind::DisplayVersion => ErrorKind::DisplayVersion,
            _ => ErrorKind::Refused,
        }
    }

    pub(crate) fn to_string(&self) -> Result<String, Infallible> {
        Ok(self.0.to_string())
    }
}

/// A command, with its arguments and its subcommands.
pub(crate) struct Builder(::clap::Command);

impl Builder {
    pub(crate) fn new(name: &'static str) -> Self {
        Builder(::clap::Command::new(name))
    }

    /// Gives the command this crate's version, which says that this is not the proved build.
    pub(crate) fn version(self, _version: &'static str) -> Self {
        Builder(self.0.version(concat!(env!("CARGO_PKG_VERSION"), " (plain Rust)")))
    }

    pub(crate) fn about(self, about: &'static str) -> Self {
        Builder(self.0.about(about))
    }

    pub(crate) fn long_about(self, details: &'static str) -> Self {
        Builder(self.0.long_about(details))
    }

    pub(crate) fn after_help(self, text: &'static str) -> Self {
        Builder(self.0.after_help(text))
    }

    pub(crate) fn arg(self, arg: ::clap::Arg) -> Result<Self, Infallible> {
        Ok(Builder(self.0.arg(arg)))
    }

    pub(crate) fn subcommand(self, below: Builder) -> Result<Self, Infallible> {
        Ok(Builder(self.0.subcommand(below.0)))
    }

    pub(crate) fn subcommand_required(self, is_required: bool) -> Self {
        Builder(self.0.subcommand_required(is_required))
    }

    /// Reads words. The first is the program's name.
    pub(crate) fn try_get_matches_from(self, words: &[String]) -> Result<Matches, Error> {
        self.0.try_get_matches_from(words).map(Matches::of).map_err(Error)
    }
}

/// What was given to a command and to its subcommand.
pub(crate) struct Matches {
    given: ::clap::ArgMatches,
    below: Option<(String, Box<Matches>)>,
}

impl Matches {
    fn of(mut given: ::clap::ArgMatches) -> Self {
        let below = given.remove_subcommand().map(|(name, given)| (name, Box::new(Matches::of(given))));
        Matches { given, below }
    }

    pub(crate) fn subcommand(&self) -> Option<(&str, &Self)> {
        self.below.as_ref().map(|(name, given)| (name.as_str(), &**given))
    }

    pub(crate) fn get_str(&self, id: &str) -> Option<&str> {
        self.given.get_one::<String>(id).map(String::as_str)
    }

    pub(crate) fn get_one<Number: Copy + Send + Sync + 'static>(&self, id: &str) -> Option<Number> {
        self.given.get_one(id).copied()
    }

    pub(crate) fn get_flag(&self, id: &str) -> bool {
        self.given.get_flag(id)
    }
}
