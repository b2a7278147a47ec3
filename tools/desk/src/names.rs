//! The names of a text's districts and items. A sheet has no names, so one
//! that is read gets `district0` and `item0` and so on.

use crate::sheet::Sheet;
use crate::words::name_as_text;

#[derive(Clone, Debug, Default, PartialEq, Eq)]
pub struct Names {
    districts: Vec<String>,
    items: Vec<ItemName>,
}

#[derive(Clone, Debug, PartialEq, Eq)]
struct ItemName {
    district: u8,
    name: String,
}

impl Names {
    pub fn numbered(sheet: &Sheet) -> Names {
        let districts = 0..sheet.district_codes.len();
        let items = sheet.items.iter().enumerate();
        Names {
            districts: districts
                .map(|number| format!("district{number}"))
                .collect(),
            items: items
                .map(|(number, item)| ItemName {
                    district: item.district,
                    name: format!("item{number}"),
                })
                .collect(),
        }
    }

    pub fn add_district(&mut self, name: &str) -> Result<(), String> {
        if self.districts.iter().any(|known| known == name) {
            return Err(format!("there is a district named {name} already"));
        }
        self.districts.push(name.to_string());
        Ok(())
    }

    /// Two items may share a name if their districts differ.
    pub fn add_item(&mut self, district: u8, name: &str) -> Result<(), String> {
        if self.named(name).any(|(_, item)| item.district == district) {
            let district = self.district(district);
            return Err(format!(
                "there is an item named {name} at {district} already"
            ));
        }
        self.items.push(ItemName {
            district,
            name: name.to_string(),
        });
        Ok(())
    }

    pub fn has_district(&self, number: u8) -> bool {
        usize::from(number) < self.districts.len()
    }

    /// Also for a copy's operand, which may be below zero.
    pub fn has_item(&self, number: i16) -> bool {
        usize::try_from(number).is_ok_and(|number| number < self.items.len())
    }

    pub fn find_district(&self, name: &str) -> Result<u8, String> {
        match self.districts.iter().position(|known| known == name) {
            Some(number) => Ok(number as u8),
            None => Err(format!("no district is named {name}")),
        }
    }

    pub fn find_item(&self, name: &str) -> Result<u8, String> {
        let found: Vec<_> = self.named(name).collect();
        match found[..] {
            [] => Err(format!("no item is named {name}")),
            [(number, _)] => Ok(number),
            [(number, _), ..] => Err(format!(
                "more than one district has {name}: say which, for example {}",
                self.item(number)
            )),
        }
    }

    pub fn find_item_at(&self, district: u8, name: &str) -> Result<u8, String> {
        self.named(name)
            .find(|(_, item)| item.district == district)
            .map(|(number, _)| number)
            .ok_or_else(|| format!("no item at {} is named {name}", self.district(district)))
    }

    /// The district as an event's text names it: by number if it has no name.
    pub fn district(&self, number: u8) -> String {
        match self.districts.get(usize::from(number)) {
            Some(name) => name_as_text(name),
            None => number.to_string(),
        }
    }

    /// The item as an event's text names it: with its district if another one
    /// has the same name, by number if it has no name.
    pub fn item(&self, number: u8) -> String {
        let Some(item) = self.items.get(usize::from(number)) else {
            return number.to_string();
        };
        let name = name_as_text(&item.name);
        if self.named(&item.name).count() == 1 {
            name
        } else {
            format!("{} {name}", self.district(item.district))
        }
    }

    fn named<'a>(&'a self, name: &'a str) -> impl Iterator<Item = (u8, &'a ItemName)> {
        (0..)
            .zip(&self.items)
            .filter(move |(_, item)| item.name == name)
    }
}
