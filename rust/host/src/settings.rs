//! What a load is given beside the file and the buffers.

use std::error::Error;
use std::fmt;
use std::ops::RangeInclusive;

use crate::context::{Context, HeldSettings, FRAMES};
use crate::machine::{ENTITIES, SAVED_STORE};

/// The check number that a file has where a load is given no other.
pub const CHECK_NUMBER: i64 = 5_927;

/// The greatest check number that a load may be given.
pub const GREATEST_CHECK_NUMBER: i64 = 65_535;

/// The most statements that any run completes.
pub const GREATEST_LIMIT: i64 = 99_999;

/// What a load is given beside the file and the buffers; the machine holds it until the next load
/// ([`Machine::settings`](crate::Machine::settings)).
///
/// The default is document 01's, without entities: check number 5927, and the greatest that there may be of the others.
/// A venue gives its own by the methods, which say what is out of range:
///
/// ```
/// use host::assemble::Assembly;
/// use host::{Machine, Refusal, RunOutcome, Settings, CELLS, SAVED_STORE};
///
/// // Calls at most 8 deep, and runs of at most 2,000 statements.
/// let settings = Settings::default().with_depth(8)?.with_limit(2_000)?;
/// let mut machine = Machine::new(Assembly::default().bytes(), vec![0; CELLS], vec![0; SAVED_STORE]);
/// machine.load_with(settings)?;
/// assert_eq!(machine.settings(), settings);
/// assert_eq!(machine.run(0, 2_001).outcome, RunOutcome::Refused(Refusal::new(28)));
///
/// let error = settings.with_depth(32).unwrap_err();
/// assert_eq!(error.to_string(), "the greatest depth is 32, which isn't 1 to 31");
/// # Ok::<(), Box<dyn std::error::Error>>(())
/// ```
///
/// The fields take any number, so that a host may hand on what it was given. A load refuses those out of range, the number of
/// entities by 13 and the others by 36, before it looks at the file:
///
/// ```
/// use host::{Machine, Refusal, Settings};
///
/// let mut machine = Machine::new(Vec::new(), Vec::new(), Vec::new());
/// let settings = Settings { limit: -1, ..Settings::default() };
/// let error = machine.load_with(settings).unwrap_err();
/// assert_eq!(error.refusal(), Some(Refusal::new(36)));
/// let error = settings.check().unwrap_err();
/// assert_eq!(error.to_string(), "the greatest run limit is -1, which isn't 1 to 99999");
/// ```
#[derive(Clone, Copy, Debug, PartialEq, Eq, Hash)]
pub struct Settings {
    /// The check number that the file's header must have, 0 to [`GREATEST_CHECK_NUMBER`]; else the load is refused 3. A
    /// program file is written with it ([`Machine::image`](crate::Machine::image)).
    pub check_number: i64,
    /// The greatest call depth, 1 to [`FRAMES`]: at it an entry is refused 22.
    pub depth: i64,
    /// The greatest number of saved cells, 0 to [`SAVED_STORE`]: an entry that would save more is refused 23. The saved store
    /// that is lent has [`SAVED_STORE`] cells or more, whatever is set.
    pub saved: i64,
    /// The greatest limit of a run, 1 to [`GREATEST_LIMIT`]: a run or call with a greater one is refused 28.
    pub limit: i64,
    /// The number of entities, 0 to [`ENTITIES`]. Lent are as many entity cells as they have, or more: the file's cells
    /// per entity for each.
    pub entities: i64,
}

impl Default for Settings {
    /// Document 01's: 5927, 31, 2,048 and 99,999; no entities.
    fn default() -> Settings {
        Settings {
            check_number: CHECK_NUMBER,
            depth: FRAMES as i64,
            saved: SAVED_STORE as i64,
            limit: GREATEST_LIMIT,
            entities: 0,
        }
    }
}

impl Settings {
    /// The same with another check number, 0 to [`GREATEST_CHECK_NUMBER`].
    pub fn with_check_number(self, check_number: i64) -> Result<Settings, SettingsError> {
        let changed = Settings {
            check_number,
            ..self
        };
        changed.checked(Setting::CheckNumber)
    }

    /// The same with another greatest depth, 1 to [`FRAMES`].
    pub fn with_depth(self, depth: i64) -> Result<Settings, SettingsError> {
        Settings { depth, ..self }.checked(Setting::Depth)
    }

    /// The same with another greatest saved count, 0 to [`SAVED_STORE`].
    pub fn with_saved(self, saved: i64) -> Result<Settings, SettingsError> {
        Settings { saved, ..self }.checked(Setting::Saved)
    }

    /// The same with another greatest run limit, 1 to [`GREATEST_LIMIT`].
    pub fn with_limit(self, limit: i64) -> Result<Settings, SettingsError> {
        Settings { limit, ..self }.checked(Setting::Limit)
    }

    /// The same with another number of entities, 0 to [`ENTITIES`]. Whether their cells are lent is seen at load.
    pub fn with_entities(self, entities: i64) -> Result<Settings, SettingsError> {
        Settings { entities, ..self }.checked(Setting::Entities)
    }

    /// Whether each setting is in its range; an error names the first that isn't. A load that is refused 36 was given settings of
    /// which this says why.
    pub fn check(&self) -> Result<(), SettingsError> {
        for setting in Setting::ALL {
            self.checked(setting)?;
        }
        Ok(())
    }

    fn checked(self, setting: Setting) -> Result<Settings, SettingsError> {
        let value = self.value(setting);
        if setting.range().contains(&value) {
            Ok(self)
        } else {
            Err(SettingsError { setting, value })
        }
    }

    fn value(&self, setting: Setting) -> i64 {
        match setting {
            Setting::CheckNumber => self.check_number,
            Setting::Depth => self.depth,
            Setting::Saved => self.saved,
            Setting::Limit => self.limit,
            Setting::Entities => self.entities,
        }
    }

    /// As the library takes them. The bits of a negative number are above every bound.
    pub(crate) fn held(&self) -> HeldSettings {
        HeldSettings {
            check_number: self.check_number as usize,
            depth: self.depth as usize,
            saved: self.saved as usize,
            limit: self.limit as usize,
        }
    }

    /// Those of a context.
    pub(crate) fn of(context: &Context) -> Settings {
        let held = &context.settings;
        Settings {
            check_number: held.check_number as i64,
            depth: held.depth as i64,
            saved: held.saved as i64,
            limit: held.limit as i64,
            entities: context.entity_count as i64,
        }
    }
}

impl fmt::Display for Settings {
    fn fmt(&self, f: &mut fmt::Formatter<'_>) -> fmt::Result {
        for setting in Setting::ALL {
            let separator = if setting == Setting::CheckNumber {
                ""
            } else {
                ", "
            };
            write!(f, "{separator}{setting} {}", self.value(setting))?;
        }
        Ok(())
    }
}

/// One of the [`Settings`].
#[derive(Clone, Copy, Debug, PartialEq, Eq, Hash)]
pub enum Setting {
    /// [`Settings::check_number`].
    CheckNumber,
    /// [`Settings::depth`].
    Depth,
    /// [`Settings::saved`].
    Saved,
    /// [`Settings::limit`].
    Limit,
    /// [`Settings::entities`].
    Entities,
}

impl Setting {
    /// All of them, in the order in which they are checked and printed.
    pub const ALL: [Setting; 5] = [
        Setting::CheckNumber,
        Setting::Depth,
        Setting::Saved,
        Setting::Limit,
        Setting::Entities,
    ];

    /// The numbers that it may be.
    pub const fn range(self) -> RangeInclusive<i64> {
        match self {
            Setting::CheckNumber => 0..=GREATEST_CHECK_NUMBER,
            Setting::Depth => 1..=FRAMES as i64,
            Setting::Saved => 0..=SAVED_STORE as i64,
            Setting::Limit => 1..=GREATEST_LIMIT,
            Setting::Entities => 0..=ENTITIES as i64,
        }
    }
}

impl fmt::Display for Setting {
    fn fmt(&self, f: &mut fmt::Formatter<'_>) -> fmt::Result {
        f.write_str(match self {
            Setting::CheckNumber => "check number",
            Setting::Depth => "greatest depth",
            Setting::Saved => "greatest saved count",
            Setting::Limit => "greatest run limit",
            Setting::Entities => "number of entities",
        })
    }
}

/// A setting that is out of its range.
#[derive(Clone, Copy, Debug, PartialEq, Eq, Hash)]
pub struct SettingsError {
    /// Which one.
    pub setting: Setting,
    /// What it is.
    pub value: i64,
}

impl fmt::Display for SettingsError {
    fn fmt(&self, f: &mut fmt::Formatter<'_>) -> fmt::Result {
        let range = self.setting.range();
        write!(
            f,
            "the {} is {}, which isn't {} to {}",
            self.setting,
            self.value,
            range.start(),
            range.end()
        )
    }
}

impl Error for SettingsError {}
