//! The calls of the member table, which is passed by value.

use crate::functions::{
    prunepocket_check_settings, prunepocket_choose, prunepocket_count_members,
    prunepocket_farewell, prunepocket_member_at, prunepocket_open, prunepocket_report,
    prunepocket_report_burst, prunepocket_sweep, prunepocket_take_datagram,
};
use crate::structs::{
    Answered, DatagramAnswered, Followed, Origin, Place, Reading, Record, Settings,
    SettingsAnswered, Table, Target,
};

impl Table {
    /// The new table, or the number of the refusal, which gives none.
    #[inline]
    pub fn open(group: u32, media: u32, rate: u32) -> Result<Table, u64> {
        // SAFETY: all arguments are plain numbers.
        let answered = unsafe { prunepocket_open(group, media, rate) };
        match answered.number {
            0 => Ok(answered.table),
            number => Err(number),
        }
    }

    #[inline]
    pub fn report(&self, record: &Record, reading: &Reading) -> Answered {
        // SAFETY: all arguments are passed by value, and any bits are good.
        unsafe { prunepocket_report(*self, *record, *reading) }
    }

    /// Lends `answers`, the list that the reports' numbers go to.
    #[inline]
    pub fn report_burst(
        &self,
        reports: &[Record],
        reading: &Reading,
        answers: &mut [u64],
    ) -> Answered {
        // SAFETY: as for report; pointers and lengths come from live slices,
        // which share no memory; the pointer of an empty slice is not null.
        unsafe {
            prunepocket_report_burst(
                *self,
                reports.as_ptr(),
                reports.len(),
                *reading,
                answers.as_mut_ptr(),
                answers.len(),
            )
        }
    }

    #[inline]
    pub fn farewell(&self, source: u32, origin: &Origin) -> Answered {
        // SAFETY: as for report.
        unsafe { prunepocket_farewell(*self, source, *origin) }
    }

    #[inline]
    pub fn sweep(&self, reading: &Reading) -> Answered {
        // SAFETY: as for report.
        unsafe { prunepocket_sweep(*self, *reading) }
    }

    /// Lends `answers`, the list that the calls' numbers go to. `reduced_size`
    /// says whether reduced-size RTCP was agreed with the datagram's sender.
    #[inline]
    pub fn take_datagram(
        &self,
        datagram: &[u8],
        reduced_size: bool,
        origin: &Origin,
        reading: &Reading,
        answers: &mut [u64],
    ) -> DatagramAnswered {
        // SAFETY: as for report_burst.
        unsafe {
            prunepocket_take_datagram(
                *self,
                datagram.as_ptr(),
                datagram.len(),
                reduced_size.into(),
                *origin,
                *reading,
                answers.as_mut_ptr(),
                answers.len(),
            )
        }
    }

    #[inline]
    pub fn count_members(&self) -> u32 {
        // SAFETY: as for report.
        unsafe { prunepocket_count_members(*self) }
    }

    /// Any place may be asked for.
    #[inline]
    pub fn member_at(&self, place: usize) -> Place {
        // SAFETY: as for report.
        unsafe { prunepocket_member_at(*self, place) }
    }

    #[inline]
    pub fn choose(&self, reading: &Reading) -> Followed {
        // SAFETY: as for report.
        unsafe { prunepocket_choose(*self, *reading) }
    }

    /// The slack is in units of 2^-16 s.
    #[inline]
    pub fn check_settings(
        &self,
        settings: &Settings,
        reading: &Reading,
        slack: u32,
    ) -> SettingsAnswered {
        // SAFETY: as for report.
        unsafe { prunepocket_check_settings(*self, *settings, *reading, slack) }
    }
}

impl Followed {
    /// The target, or the refusal's number.
    #[inline]
    pub fn choice(&self) -> Result<Target, u64> {
        match self.number {
            0 => Ok(self.target),
            number => Err(number),
        }
    }
}

impl SettingsAnswered {
    /// Whether the packet suits the members, or the refusal's number.
    #[inline]
    pub fn verdict(&self) -> Result<bool, u64> {
        match self.number {
            0 => Ok(self.suits == 1),
            number => Err(number),
        }
    }
}
