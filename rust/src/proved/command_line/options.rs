// Made by tools/erase.py from crates/command_line/src/options.rt; not edited by hand.
//! The options for the dialect, `--dialect`, `--as` and `--npm`, and for pre-releases,
//! `--include-prerelease`, `--releases-only` and their short forms.
#![cfg(feature = "std")]

use crate::rattle_std::prelude::*;
use crate::proved::command_line::error::{ArgumentError, Quoted};
use crate::proved::semver_ranges::dialect::Dialect;
use crate::proved::tool_ranges::meaning::Rules;
use crate::proved::version_sets::PreReleases;

/// The state of the options that were taken so far: the dialect, and which pre-releases count.
pub struct MeaningOptions {
    /// The dialect that was requested, and the option that requested it.
    dialect: Option<(Dialect, &'static str)>,
    /// The rule for pre-releases that was requested, and the option that requested it.
    rule: Option<(PreReleases, &'static str)>,
    /// Whether the next argument names the dialect.
    wants_name: bool,
}

impl MeaningOptions {
    /// Returns the state without any option.
    pub fn new() -> MeaningOptions {
        MeaningOptions {
            dialect: None,
            rule: None,
            wants_name: false,
        }
    }

    /// Takes an argument. Returns whether it is one of these options, or the name after `--dialect`
    /// or `--as`. Other arguments are left to the program.
    ///
    /// # Errors
    ///
    /// `UnknownDialect` for a name that no dialect has; only this error can be replaced by
    /// `OutOfMemory`. `Contradiction` if an earlier option has another value, and `GivenTwice` if
    /// it has the same value and is about pre-releases; both name the long forms. After an error
    /// the options are those before it, and no name is expected.
    pub fn take(&mut self, argument: &str) -> Result<bool, ArgumentError> {
        if self.wants_name {
            self.wants_name = false;
            self.set_dialect_by_name(argument)?;
            return Ok(true);
        }
        if let Some(name) = argument.strip_prefix("--dialect=") {
            self.set_dialect_by_name(name)?;
            return Ok(true);
        }
        if let Some(name) = argument.strip_prefix("--as=") {
            self.set_dialect_by_name(name)?;
            return Ok(true);
        }
        match argument {
            "--dialect" | "--as" => self.wants_name = true,
            "--npm" => self.set_dialect(Dialect::Npm, "--npm")?,
            "--releases-only" | "--releases" => {
                self.set_pre_releases(PreReleases::Excluded, "--releases-only")?;
            }
            "--include-prerelease" | "--pre" => {
                self.set_pre_releases(PreReleases::Included, "--include-prerelease")?;
            }
            _ => return Ok(false),
        }
        Ok(true)
    }

    /// Returns whether an option requested a dialect.
    pub fn has_dialect(&self) -> bool {
        self.dialect.is_some()
    }

    /// Returns the meaning, once all options are taken. Without options it is Cargo's dialect with
    /// the default rule for pre-releases.
    ///
    /// # Errors
    ///
    /// `NoDialect` if nothing followed `--dialect` or `--as`.
    pub fn finish(self) -> Result<Rules, ArgumentError> {
        if self.wants_name {
            return Err(ArgumentError::NoDialect);
        }
        Ok(Rules {
            dialect: self.dialect.map_or(Dialect::Cargo, |(dialect, _)| dialect),
            pre_releases: self.rule.map_or(PreReleases::ByDialect, |(rule, _)| rule),
        })
    }

    /// Takes the dialect with a name.
    fn set_dialect_by_name(&mut self, name: &str) -> Result<(), ArgumentError> {
        match name {
            "cargo" => self.set_dialect(Dialect::Cargo, "--dialect cargo"),
            "npm" => self.set_dialect(Dialect::Npm, "--dialect npm"),
            "crate-cargo" => self.set_dialect(Dialect::CrateCargo, "--dialect crate-cargo"),
            "crate-npm" => self.set_dialect(Dialect::CrateNpm, "--dialect crate-npm"),
            _ => Err(ArgumentError::UnknownDialect(Quoted {
                text: name.fallible_to_string()?,
            })),
        }
    }

    /// Takes the dialect that an option requests; an earlier one may have requested it, too.
    fn set_dialect(&mut self, dialect: Dialect, option: &'static str) -> Result<(), ArgumentError> {
        let earlier = self.dialect;
        match earlier {
            Some((earlier, _)) if earlier == dialect => Ok(()),
            Some((_, earlier)) => Err(ArgumentError::Contradiction(option, earlier)),
            None => {
                self.dialect = Some((dialect, option));
                Ok(())
            }
        }
    }

    /// Takes the rule for pre-releases that an option requests.
    fn set_pre_releases(
        &mut self,
        rule: PreReleases,
        option: &'static str,
    ) -> Result<(), ArgumentError> {
        let earlier = self.rule;
        match earlier {
            Some((earlier, _)) if earlier == rule => Err(ArgumentError::GivenTwice(option)),
            Some((_, earlier)) => Err(ArgumentError::Contradiction(option, earlier)),
            None => {
                self.rule = Some((rule, option));
                Ok(())
            }
        }
    }
}

/// Takes an option without a value.
///
/// # Errors
///
/// `GivenTwice` if it was given before.
pub fn take_once(option: &'static str, is_given: &mut bool) -> Result<(), ArgumentError> {
    if *is_given {
        return Err(ArgumentError::GivenTwice(option));
    }
    *is_given = true;
    Ok(())
}

impl ArgumentError {
    /// Returns whether an option has a value after `=`, and what is before that is an option, as
    /// `is_known` says.
    pub(crate) fn has_needless_value<F: FnOnce(&str) -> bool>(option: &str, is_known: F) -> bool {
        match option.split_once('=') {
            Some((name, _)) => is_known(name),
            None => false,
        }
    }

    /// Returns the error of an option that isn't taken, with or without a needless value.
    pub fn not_taken(option: String, has_needless_value: bool) -> ArgumentError {
        let option = Quoted { text: option };
        if has_needless_value {
            ArgumentError::NeedlessValue(option)
        } else {
            ArgumentError::UnknownOption(option)
        }
    }
}
