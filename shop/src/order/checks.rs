// What an order's lines must have together: a plate, a trim that the blade can take, and panels each of which fits a
// plate of the stock.
use super::fault::{Expected, Fault};
use super::names::number_repeated;
use super::reader::{Draft, Heading, Placed};
use super::{Order, Panel};
use crate::millimetres::Millimetres;
use crate::plan::Sides;
use planner_search::order::{MOST_KERF, MOST_PANELS, MOST_SIZES};
use std::collections::HashSet;

impl Draft {
    /// The order, or the first fault of the whole and then those of each panel.
    pub fn order(self) -> Result<Order, Vec<Fault>> {
        let end = |expected: &str| vec![Expected::at(1, expected, "the end of the file").on(self.lines + 1)];
        if self.plates.is_empty() {
            return Err(end("a line plate, LENGTH x WIDTH"));
        }
        if !matches!(self.heading, Some(Heading::Columns(_))) {
            return Err(end("a heading name, length, width, count, price"));
        }
        if self.panels.is_empty() {
            return Err(end("a line for each panel"));
        }
        self.saw_fault().map_or(Ok(()), |fault| Err(vec![fault]))?;
        let turning = self.turning.unwrap_or(false);
        let mut notices = self.notices;
        if self.kerf.is_none() {
            notices.push("no saw line with a kerf: the blade is taken to have no width".to_string());
        }
        let mut order = Order {
            plates: self.plates.into_iter().map(|plate| plate.value).collect(),
            trim: self.trim.map_or(Millimetres::ZERO, |trim| trim.value),
            stages: self.stages,
            kerf: self.kerf.map_or(Millimetres::ZERO, |kerf| kerf.value),
            panels: Vec::new(),
            notices,
        };
        let mut panels: Vec<Placed<Panel>> =
            self.panels.into_iter().map(|panel| panel.turning(turning)).collect();
        let usable: Vec<Sides> = order.plates.iter().map(|plate| order.usable(plate)).collect();
        let mut faults: Vec<Fault> = panels.iter().filter_map(|panel| misfit(panel, &usable)).collect();
        faults.extend(one_too_many(&panels));
        faults.extend(too_many_copies(&panels));
        if !faults.is_empty() {
            return Err(faults);
        }
        order.notices.extend(number_repeated(&mut panels));
        order.panels = panels.into_iter().map(|panel| panel.value).collect();
        Ok(order)
    }

    fn saw_fault(&self) -> Option<Fault> {
        let kerf = self.kerf.as_ref()?;
        if kerf.value > MOST_KERF {
            return Some(kerf.fault(format!("a kerf of at most {MOST_KERF} mm"), kerf.value.to_string()));
        }
        let trim = self.trim.as_ref().filter(|trim| trim.value <= kerf.value)?;
        Some(trim.fault(format!("a trim wider than the kerf, {} mm", kerf.value), trim.value.to_string()))
    }
}

/// The fault of a panel that fits no plate in any way in which it may lie.
fn misfit(panel: &Placed<Panel>, usable: &[Sides]) -> Option<Fault> {
    if usable.iter().any(|plate| panel.value.fits(*plate)) {
        return None;
    }
    let plates: Vec<String> = usable.iter().map(|plate| crate::layout::size(*plate)).collect();
    let expected = format!("a panel that fits a plate of {}", plates.join(" or "));
    Some(panel.fault(expected, crate::layout::size(panel.value.sides())))
}

/// The first panel that makes the sizes too many.
fn one_too_many(panels: &[Placed<Panel>]) -> Option<Fault> {
    let mut sizes = HashSet::new();
    let wanted = panels.iter().filter(|panel| panel.value.count > 0);
    let mut kinds = wanted.map(|panel| (panel, (panel.value.sides, panel.value.price, panel.value.turns)));
    let (panel, _) = kinds.find(|(_, size)| sizes.insert(*size) && sizes.len() > MOST_SIZES)?;
    let found = crate::layout::size(panel.value.sides());
    Some(panel.fault(format!("no more than {MOST_SIZES} sizes of panels"), found))
}

/// The first panel that makes the copies too many.
fn too_many_copies(panels: &[Placed<Panel>]) -> Option<Fault> {
    let mut all = 0;
    let panel = panels.iter().find(|panel| {
        all += panel.value.count;
        all > MOST_PANELS
    })?;
    Some(panel.fault(format!("no more than {MOST_PANELS} panels in all"), all.to_string()))
}
