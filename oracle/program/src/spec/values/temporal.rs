//! Stand-in for the calendar: only printed values and text that is read as a date or a time reach it, and no case has those.
pub(crate) mod date {
    use chrono::{DateTime, NaiveDate, Utc};

    pub(crate) fn date_to_days(_: &NaiveDate) -> i32 {
        unimplemented!()
    }

    pub(crate) fn days_to_date(_: i32) -> NaiveDate {
        unimplemented!()
    }

    pub(crate) fn date_from_naive_date(_: NaiveDate) -> i32 {
        unimplemented!()
    }

    pub(crate) fn unix_epoch() -> DateTime<Utc> {
        unimplemented!()
    }
}

pub(crate) mod time {
    use chrono::NaiveTime;

    pub(crate) fn time_to_microseconds(_: &NaiveTime) -> i64 {
        unimplemented!()
    }

    pub(crate) fn microseconds_to_time(_: i64) -> NaiveTime {
        unimplemented!()
    }
}

pub(crate) mod timestamp {
    use chrono::NaiveDateTime;

    pub(crate) fn datetime_to_microseconds(_: &NaiveDateTime) -> i64 {
        unimplemented!()
    }

    pub(crate) fn microseconds_to_datetime(_: i64) -> NaiveDateTime {
        unimplemented!()
    }

    pub(crate) fn nanoseconds_to_datetime(_: i64) -> NaiveDateTime {
        unimplemented!()
    }
}

pub(crate) mod timestamptz {
    use chrono::{DateTime, Utc};

    pub(crate) fn datetimetz_to_microseconds(_: &DateTime<Utc>) -> i64 {
        unimplemented!()
    }

    pub(crate) fn microseconds_to_datetimetz(_: i64) -> DateTime<Utc> {
        unimplemented!()
    }

    pub(crate) fn nanoseconds_to_datetimetz(_: i64) -> DateTime<Utc> {
        unimplemented!()
    }
}
