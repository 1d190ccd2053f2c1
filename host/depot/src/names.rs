//! The names of zones that a drawing has, held against the zones' files that slips are stamped by.

use crate::bundle;
use crate::fault::Fault;
use crate::geojson::{Collection, Feature};
use crate::words::{count, few};
use std::collections::BTreeSet;
use std::path::{Path, PathBuf};
use uskelzar::LeftOut;

/// Where Debian's tzdata has its files.
const USUAL: &str = "/usr/share/zoneinfo";

/// The names of the zones in a folder of TZif files, or in a bundle of them.
pub struct Known {
    place: PathBuf,
    names: BTreeSet<String>,
    /// Those that the folder has and no slip can be stamped by.
    left_out: Vec<LeftOut>,
}

/// What is said of a drawing's names: faults, and what is no fault.
#[derive(Debug, Default)]
pub struct Said {
    pub faults: Vec<String>,
    pub notes: Vec<String>,
}

/// The folder or bundle that the names in a file of this type are held against: the one that was asked for, else the usual folder. Countries are held against none.
pub fn place(asked: Option<&Path>, table: char) -> Option<&Path> {
    (table == 'T').then(|| asked.unwrap_or(Path::new(USUAL)))
}

impl Known {
    /// Of the folder or bundle that was asked for; else of the usual folder, where it is there.
    pub fn of(asked: Option<&Path>, table: char) -> Result<Option<Known>, Fault> {
        let Some(place) = place(asked, table) else { return Ok(None) };
        match bundle::opened(place) {
            Ok((bundle, left_out)) => Ok(Some(Known { place: place.to_path_buf(), names: bundle::names(&bundle), left_out })),
            Err(_) if asked.is_none() => Ok(None),
            Err(fault) => Err(fault),
        }
    }

    /// Known names that look like one, the likest first: at most three, and none that is quite another.
    fn nearest(&self, name: &str) -> Vec<&str> {
        let far = |known: &str| strsim::damerau_levenshtein(&known.to_lowercase(), &name.to_lowercase());
        // a city alone is sought behind the slash
        let city = |known: &str| known.rsplit('/').next().map_or(usize::MAX, |city| strsim::damerau_levenshtein(&city.to_lowercase(), &name.to_lowercase()));
        let mut all: Vec<(usize, &str)> = self.names.iter().map(|known| (far(known).min(city(known)), known.as_str())).collect();
        all.sort_unstable();
        let most = (name.chars().count() / 3).clamp(1, 4);
        all.into_iter().filter(|(far, _)| *far <= most).take(3).map(|(_, known)| known).collect()
    }
}

fn value<'a>(feature: &'a Feature, name: &str) -> Option<&'a str> {
    feature.properties.iter().find(|(key, _)| key == name).map(|(_, value)| value.as_str())
}

/// The name that slips in a feature are stamped by.
fn zone_of(feature: &Feature) -> Option<String> {
    let parts = (value(feature, "TimezoneIdPrefix"), value(feature, "TimezoneId"));
    let name = match parts {
        (None, None) => value(feature, "tzid")?.to_string(),
        (prefix, id) => [prefix, id].into_iter().flatten().collect(),
    };
    (!name.is_empty()).then_some(name)
}

/// What is wrong with a drawing's names, and what was decided.
pub fn said(collection: &Collection, known: Option<&Known>) -> Said {
    let mut said = Said::default();
    let named: Vec<(&Feature, Option<String>)> = collection.features.iter().map(|feature| (feature, zone_of(feature))).collect();
    if named.iter().all(|(_, zone)| zone.is_none()) {
        return said; // the plan says that nothing can be stamped
    }
    match known {
        Some(known) => said.faults.extend(named.iter().filter_map(|(feature, zone)| known.fault(feature, zone.as_deref()?))),
        None => said.notes.push(format!("no zones in {USUAL}: the names of zones were held against nothing; --zones gives a folder or a bundle")),
    }
    let without: Vec<String> = named.iter().filter(|(_, zone)| zone.is_none()).map(|(feature, _)| format!("{} has no zone: nothing can be stamped in it", feature.name)).collect();
    said.notes.extend(few(&without));
    said.notes.extend(few(&named.iter().filter_map(|(feature, zone)| beside(feature, zone.as_deref()?)).collect::<Vec<_>>()));
    said
}

impl Known {
    fn fault(&self, feature: &Feature, zone: &str) -> Option<String> {
        if self.names.contains(zone) {
            return None;
        }
        if let Some(LeftOut { why, .. }) = self.left_out.iter().find(|left| left.name == zone) {
            return Some(format!("{}: {zone:?} of {} stamps nothing: {why}", feature.name, self.place.display()));
        }
        let nearest = self.nearest(zone);
        let near = if nearest.is_empty() { format!("{} are there", count(self.names.len(), "name")) } else { format!("nearest: {}", nearest.join(", ")) };
        Some(format!("{}: {zone:?} is no zone of {}; {near}", feature.name, self.place.display()))
    }
}

/// `tzid` is a plain field where the two names of the format are there.
fn beside(feature: &Feature, zone: &str) -> Option<String> {
    let tzid = value(feature, "tzid")?;
    let split = value(feature, "TimezoneId").is_some() || value(feature, "TimezoneIdPrefix").is_some();
    let other = if tzid == zone { "".into() } else { format!(", and says {tzid:?}") };
    split.then(|| format!("{}: slips are stamped by TimezoneIdPrefix and TimezoneId, {zone:?}; tzid stands beside them{other}", feature.name))
}

#[cfg(test)]
mod tests {
    use super::*;
    use crate::geojson::collect;
    use serde_json::{json, Value};

    /// What names are held against is read, asked for or not, and so never written over.
    #[test]
    fn the_place_of_names() {
        assert_eq!([place(None, 'T'), place(Some(Path::new("x")), 'T')], [USUAL, "x"].map(|known| Some(Path::new(known))));
        assert_eq!([place(None, 'C'), place(Some(Path::new("x")), 'C')], [None, None]);
    }

    fn known() -> Known {
        let names = ["Europe/Berlin", "Europe/Bern", "America/New_York", "America/Argentina/Salta", "UTC", "Etc/UTC", "Asia/Tokyo"];
        Known { place: "zones".into(), names: names.map(String::from).into(), left_out: vec![] }
    }

    fn told(properties: &[Value]) -> Said {
        let ring = json!([[[1, 1], [2, 1], [2, 2], [1, 1]]]);
        let feature = |properties| json!({"type": "Feature", "properties": properties, "geometry": {"type": "Polygon", "coordinates": ring}});
        let features: Vec<Value> = properties.iter().map(feature).collect();
        said(&collect(&json!({"type": "FeatureCollection", "features": features})).unwrap(), Some(&known()))
    }

    #[test]
    fn nearest_names() {
        let known = known();
        assert_eq!(known.nearest("Europe/Berln"), ["Europe/Berlin", "Europe/Bern"]);
        assert_eq!(known.nearest("europe/berlin")[0], "Europe/Berlin");
        assert_eq!(known.nearest("New York"), ["America/New_York"]);
        assert_eq!(known.nearest("Mars/Olympus"), [""; 0]);
    }

    #[test]
    fn names_that_are_unknown() {
        let all = told(&[json!({"tzid": "Europe/Berln"}), json!({"tzid": 5}), json!({"tzid": "Asia/Tokyo"}), json!({"TimezoneIdPrefix": "Asia/", "TimezoneId": "Tokyo"})]);
        assert_eq!(all.faults[0], "feature 1 (Europe/Berln): \"Europe/Berln\" is no zone of zones; nearest: Europe/Berlin, Europe/Bern");
        assert_eq!(all.faults[1], "feature 2 (5): \"5\" is no zone of zones; 7 names are there");
        assert_eq!((all.faults.len(), all.notes.len()), (2, 0));
    }

    #[test]
    fn what_is_only_said() {
        let both = json!({"Name": "A", "tzid": "Etc/UTC", "TimezoneIdPrefix": "Asia/", "TimezoneId": "Tokyo"});
        let all = told(&[both, json!({"Name": "B"})]);
        assert!(all.faults.is_empty(), "{all:?}");
        assert_eq!(all.notes[0], "feature 2 (B) has no zone: nothing can be stamped in it");
        assert_eq!(all.notes[1], "feature 1 (A): slips are stamped by TimezoneIdPrefix and TimezoneId, \"Asia/Tokyo\"; tzid stands beside them, and says \"Etc/UTC\"");
        assert!(told(&[json!({"Name": "B"})]).notes.is_empty());
    }
}
