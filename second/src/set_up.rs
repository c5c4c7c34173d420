//! Set-up: the settings and the station row, refusals 2 to 10.

use crate::refusal::Refusal;
use crate::state::{Settings, State, Station, PRI, RTDG, RTVC, STATIONS};

/// A refused set-up: the number, and for 7 to 10 the faulty station's place (else 0).
#[derive(Clone, Copy, Debug, PartialEq, Eq)]
pub struct RefusedSetUp {
    pub refusal: Refusal,
    pub station: usize,
}

/// Sets up a state; "a refused set-up hands back its number and an all-zero state".
pub fn set_up(settings: Settings, row: &[Station]) -> (Result<(), RefusedSetUp>, State) {
    let mut state = State::ZERO;
    let passed = check(&settings, row).map(|stations| {
        state.settings = settings;
        state.stations[..stations.len()].copy_from_slice(stations);
    });
    (passed, state)
}

/// "Set-up tries 2 to 6, then the stations in turn"; hands back the listed part of the row.
fn check<'a>(settings: &Settings, row: &'a [Station]) -> Result<&'a [Station], RefusedSetUp> {
    let of_row = |refusal| RefusedSetUp {
        refusal,
        station: 0,
    };
    check_settings(settings).map_err(of_row)?;
    // "A station row shorter than N gives 6; what stands past N is unread."
    let Some(stations) = row.get(..settings.n as usize) else {
        return Err(of_row(Refusal::Stations));
    };
    check_stations(settings, stations)?;
    Ok(stations)
}

/// Refusals 2 to 6, for a row that is long enough.
pub fn check_settings(settings: &Settings) -> Result<(), Refusal> {
    if !matches!(settings.discipline, PRI | RTDG | RTVC) {
        return Err(Refusal::Discipline);
    }
    if !space_in_range(settings.d) {
        return Err(Refusal::ParameterSpace);
    }
    if !space_in_range(settings.a) {
        return Err(Refusal::AddressSpace);
    }
    if !laxity_step_in_range(settings) {
        return Err(Refusal::LaxityStep);
    }
    if !(1..=STATIONS as u64).contains(&settings.n) {
        return Err(Refusal::Stations);
    }
    Ok(())
}

/// "2 to 65,536".
fn space_in_range(space: u32) -> bool {
    (2..=65_536).contains(&space)
}

/// "RTDG: 1 to 65,535; otherwise exactly 1".
fn laxity_step_in_range(settings: &Settings) -> bool {
    if settings.discipline == RTDG {
        (1..=65_535).contains(&settings.q)
    } else {
        settings.q == 1
    }
}

/// "the first faulty station in the listed order decides".
pub fn check_stations(settings: &Settings, stations: &[Station]) -> Result<(), RefusedSetUp> {
    for (station, listed) in stations.iter().enumerate() {
        check_station(settings, listed, &stations[..station])
            .map_err(|refusal| RefusedSetUp { refusal, station })?;
    }
    Ok(())
}

/// Refusals 7 to 10 for one station.
pub(crate) fn check_station(
    settings: &Settings,
    station: &Station,
    earlier: &[Station],
) -> Result<(), Refusal> {
    let circuits = settings.discipline == RTVC;
    if station.address >= settings.a {
        return Err(Refusal::AddressRange);
    }
    if earlier.iter().any(|e| e.address == station.address) {
        return Err(Refusal::AddressTwice);
    }
    // "RTVC: 0 to D - 1, distinct; otherwise 0".
    if circuits && station.capability >= settings.d || !circuits && station.capability != 0 {
        return Err(Refusal::CapabilityRange);
    }
    if circuits && earlier.iter().any(|e| e.capability == station.capability) {
        return Err(Refusal::CapabilityTwice);
    }
    Ok(())
}
