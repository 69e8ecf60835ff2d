//! A plan as it is lent: numbers in lists, sound or not.

#[derive(Clone, Debug, Default)]
pub struct Plan {
    pub length: u32,
    /// Three numbers a window: owner, offset, budget.
    pub windows: Vec<u32>,
    /// Four numbers a row: partition, base, size, access.
    pub rows: Vec<u32>,
}

impl Plan {
    /// Windows one after another from 0, as long as their budgets; no rows.
    pub fn of(windows: &[(u32, u32)]) -> Plan {
        let mut plan = Plan::default();
        for &(owner, budget) in windows {
            plan.windows.extend([owner, plan.length, budget]);
            plan.length += budget;
        }
        plan
    }

    pub fn with_rows(self, rows: &[[u32; 4]]) -> Plan {
        Plan { rows: rows.concat(), ..self }
    }
}
