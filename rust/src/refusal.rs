use core::error::Error;
use core::fmt;

/// Why a call was refused, in words by `Display`. Where several apply, it is the first of them in this order.
#[derive(Clone, Copy, Debug, PartialEq, Eq)]
pub enum Refusal {
    /// The script is longer than 65,536 bytes.
    ScriptTooLong = 9,
    /// The chain has 0 or more than 16 records, or a script's chain record says so.
    ChainLength = 1,
    /// The driver's number isn't in 1..n.
    DriverNumber = 2,
    /// More than 4,096 clocks in one access.
    TooManyClocks = 3,
    /// Fewer bytes are sent than the clocks need.
    SentTooShort = 4,
    /// The room for the answer is smaller than the clocks need, or that for a plan's bytes or a lit time's totals too small.
    AnswerTooShort = 5,
    /// A cathode, digit, plane or pin levels out of range, or a lent plane or glyph table of another length.
    OutOfRange = 6,
    /// Some record, or the bus state, isn't sound.
    Unsound = 7,
    /// Two parts of a bus are strapped to one address.
    OneAddress = 10,
    /// A part is strapped to an address above 127.
    AddressTooHigh = 11,
    /// The call is lacked by a MAX6957 or by the old family; or some record's family is neither.
    Lacked = 14,
    /// The wanted planes aren't 32 bytes a driver.
    WantedLength = 12,
    /// The room for the list is too small for the shortest one.
    ListTooShort = 13,
}

impl Refusal {
    const ALL: [Refusal; 13] = [
        Refusal::ScriptTooLong,
        Refusal::ChainLength,
        Refusal::DriverNumber,
        Refusal::TooManyClocks,
        Refusal::SentTooShort,
        Refusal::AnswerTooShort,
        Refusal::OutOfRange,
        Refusal::Unsound,
        Refusal::OneAddress,
        Refusal::AddressTooHigh,
        Refusal::Lacked,
        Refusal::WantedLength,
        Refusal::ListTooShort,
    ];

    /// Its number, as C has it.
    pub fn number(self) -> u8 {
        self as u8
    }

    // What a call's number says: 0 is served.
    pub(crate) fn of(number: u8) -> Result<(), Refusal> {
        if number == 0 {
            return Ok(());
        }
        let named = Refusal::ALL.into_iter().find(|r| r.number() == number);
        Err(named.expect("a number that a call may give"))
    }
}

impl fmt::Display for Refusal {
    fn fmt(&self, f: &mut fmt::Formatter<'_>) -> fmt::Result {
        f.write_str(match self {
            Refusal::ScriptTooLong => "script longer than 65,536 bytes",
            Refusal::ChainLength => "the chain has 0 or more than 16 records",
            Refusal::DriverNumber => "driver number not in 1..n",
            Refusal::TooManyClocks => "more than 4,096 clocks in one access",
            Refusal::SentTooShort => "sent bytes fewer than the clocks need",
            Refusal::AnswerTooShort => "room for answer bytes fewer than the clocks need",
            Refusal::OutOfRange => {
                "cathode above 7, pin levels above 31 (over 28 bits for a MAX6957), \
                 a digit (alone or in a range) above 15, a plane above 1, a range's last digit below its first, \
                 a lent plane not 16 long, or a glyph table not 128 long"
            }
            Refusal::Unsound => "some record of the chain isn't sound, or the bus state isn't",
            Refusal::OneAddress => "two parts with one address",
            Refusal::AddressTooHigh => "address above 127",
            Refusal::Lacked => {
                "a family number unknown in some record, or a call that the named driver, \
                 or for the planner, its check and the two-wire bus any driver, lacks"
            }
            Refusal::WantedLength => "wanted planes not 32 bytes a driver",
            Refusal::ListTooShort => "room for the list too small for the shortest",
        })
    }
}

impl Error for Refusal {}
