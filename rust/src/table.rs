//! Tables that are plans, which can be asked without their texts.

use crate::calls::Plan;
use crate::limits::FIELDS;
use crate::{Refusal, Variable, Variables};
use std::borrow::Cow;

/// The number of a record's field that tells the record behind its subtree.
const NEXT: usize = 5;

/// The number of a record's field that tells its variables, all copies counted.
const COUNT: usize = 6;

/// A table that is a plan: eight numbers for each segment and data element of a description.
///
/// It needs no text to tell where each variable lives, so it can be stored and asked alone. It is made of any numbers, owned or borrowed, and refused
/// with [`NotAPlan`](crate::Cause::NotAPlan) where they are no plan; that is asked once, and not again by the calls on it.
///
/// ```
/// use planksling::{Cause, Description, Table};
///
/// # let text = include_str!(concat!(env!("CARGO_MANIFEST_DIR"), "/../samples/worked.xml"));
/// let description: Description = text.parse()?;
/// let stored: Vec<i64> = description.table().numbers().to_vec();
///
/// let table = Table::try_from(stored)?;
/// assert_eq!((table.record_count(), table.variable_count()), (6, 8));
/// assert_eq!(table.variable(4)?.address, 147);
///
/// let refusal = Table::try_from(&table.numbers()[1..]).unwrap_err();
/// assert_eq!(refusal.cause, Cause::NotAPlan);
/// # Ok::<(), planksling::Refusal>(())
/// ```
#[derive(Clone, Debug, PartialEq, Eq, Hash)]
pub struct Table<'a> {
    plan: Plan<'a>,
    variables: u64,
}

impl<'a> Table<'a> {
    /// The table of a plan that has so many variables.
    pub(crate) fn new(plan: Plan<'a>, variables: u64) -> Table<'a> {
        Table { plan, variables }
    }

    /// The table of these numbers, if they are a plan. Its variables are those of its segments together: a record of a plan tells how many it has, and
    /// which record comes behind its subtree.
    fn checked(numbers: Cow<'a, [i64]>) -> Result<Table<'a>, Refusal> {
        let plan = Plan::checked(numbers)?;
        let (mut i, mut variables) = (0, 0);
        while let Some(segment) = plan.numbers().get(FIELDS * i..FIELDS * (i + 1)) {
            variables += segment[COUNT] as u64;
            i = segment[NEXT] as usize;
        }
        Ok(Table { plan, variables })
    }

    /// The numbers, eight for each record, in the order of the description.
    pub fn numbers(&self) -> &[i64] {
        self.plan.numbers()
    }

    /// The numbers, to keep.
    pub fn into_numbers(self) -> Vec<i64> {
        self.plan.into_numbers()
    }

    /// The same table, borrowed from nothing.
    pub fn into_owned(self) -> Table<'static> {
        Table { plan: self.plan.into_owned(), variables: self.variables }
    }

    /// How many records there are: one for each segment and data element.
    pub fn record_count(&self) -> usize {
        self.numbers().len() / FIELDS
    }

    /// Record i: its kind (1 segment, 2 group, else that of a variable); the place of its `<` in the text; origin or offset; space, 0 for a group, or
    /// size; replication; the number of the record behind its subtree; its variables; the change of the address over all its copies.
    ///
    /// ```
    /// use planksling::Description;
    ///
    /// # let text = include_str!(concat!(env!("CARGO_MANIFEST_DIR"), "/../samples/worked.xml"));
    /// let description: Description = text.parse()?;
    /// assert_eq!(description.table().record(2), Some(&[2, 195, 2, 0, 3, 5, 6, 29]));
    /// assert!(description.text()[195..].starts_with("<group"));
    /// assert_eq!(description.table().record(6), None);
    /// # Ok::<(), planksling::Refusal>(())
    /// ```
    pub fn record(&self, i: usize) -> Option<&[i64; FIELDS]> {
        self.numbers().chunks_exact(FIELDS).nth(i)?.try_into().ok()
    }

    /// How many variables there are, all copies of groups counted.
    pub fn variable_count(&self) -> u64 {
        self.variables
    }

    /// Variable n; refused with [`NoVariable`](crate::Cause::NoVariable) where there are no more than n.
    pub fn variable(&self, n: u64) -> Result<Variable, Refusal> {
        self.plan.locate(n)
    }

    /// All variables, in the order of their numbers.
    pub fn iter(&self) -> Variables<'_> {
        Variables::new(&self.plan, self.variables)
    }
}

impl TryFrom<Vec<i64>> for Table<'static> {
    type Error = Refusal;

    fn try_from(numbers: Vec<i64>) -> Result<Table<'static>, Refusal> {
        Table::checked(Cow::Owned(numbers))
    }
}

impl<'a> TryFrom<&'a [i64]> for Table<'a> {
    type Error = Refusal;

    fn try_from(numbers: &'a [i64]) -> Result<Table<'a>, Refusal> {
        Table::checked(Cow::Borrowed(numbers))
    }
}

impl AsRef<[i64]> for Table<'_> {
    fn as_ref(&self) -> &[i64] {
        self.numbers()
    }
}

impl<'t> IntoIterator for &'t Table<'_> {
    type Item = Variable;
    type IntoIter = Variables<'t>;

    fn into_iter(self) -> Variables<'t> {
        self.iter()
    }
}
