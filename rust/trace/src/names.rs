//! The names that a script's `configure` gives to tables, fields, actions and parameters.

/// The names of one `configure`.
#[derive(Clone, Debug, Default, PartialEq, Eq)]
pub struct Names {
    pub tables: Vec<Table>,
}

/// A table's names; fields and actions stand in their places.
#[derive(Clone, Debug, PartialEq, Eq)]
pub struct Table {
    pub name: String,
    pub id: u32,
    pub fields: Vec<Field>,
    pub actions: Vec<Action>,
}

/// A field's name, and its kind, by which `f=V` is exact or optional.
#[derive(Clone, Debug, PartialEq, Eq)]
pub struct Field {
    pub name: String,
    pub kind: u8,
}

/// An action's name, and those of its parameters.
#[derive(Clone, Debug, PartialEq, Eq)]
pub struct Action {
    pub name: String,
    pub id: u32,
    pub parameters: Vec<String>,
}

impl Names {
    /// The table with the id; the first one, as ids may be repeated on purpose.
    pub fn table(&self, id: u32) -> Option<&Table> {
        self.tables.iter().find(|table| table.id == id)
    }

    /// The table with the name.
    pub fn named(&self, name: &str) -> Option<&Table> {
        self.tables.iter().find(|table| table.name == name)
    }
}

impl Table {
    /// The action with the id.
    pub fn action(&self, id: u32) -> Option<&Action> {
        self.actions.iter().find(|action| action.id == id)
    }
}
