//! The users' shares of sessions, cleaners, collectors and connections, of which there are only so many. How a user's
//! connections share its sessions, `Gateway::may_open` says.

use crate::options::Options;
use crate::protocol::Kind;

/// The place of connections in a user's counts, behind the three kinds of things.
pub const CONNECTION: usize = 3;

/// The most sessions, cleaners and collectors of a store.
const MOST: [usize; 3] = [1024, 1024, 64];

/// The last sessions, cleaners, collectors and connections, which are the administrator's if it has a socket.
pub const KEPT: [usize; 4] = [64, 64, 4, 16];

/// The administrator's place among the users.
pub const ADMINISTRATOR: usize = 0;

/// A user, and how much it has of each, or is getting. All clients over TCP are one user, without a number.
pub struct User {
    pub name: String,
    pub counts: [usize; 4],
}

pub struct Shares {
    pub users: Vec<User>,
    pub totals: [usize; 4],
    most: [usize; 4],
    kept: [usize; 4],
    of_user: [usize; 4],
}

/// Whether a user may have one more of a kind, and from which user one is taken for that.
pub enum Share {
    Left,
    TakenFrom(usize),
    None,
}

impl Shares {
    pub fn new(options: &Options, clients: usize, has_admin: bool) -> Shares {
        let kept = if has_admin { KEPT } else { [0; 4] };
        let most = [MOST[0], MOST[1], MOST[2], clients + kept[CONNECTION]];
        let of_user = [options.user_sessions, 0, 0, options.user_clients];
        let mut shares = Shares { users: Vec::new(), totals: [0; 4], most, kept, of_user };
        shares.user_named("administrator".into());
        shares
    }

    /// The place of a user by its number.
    pub fn user(&mut self, number: Option<u32>) -> usize {
        self.user_named(number.map_or("tcp".into(), |number| number.to_string()))
    }

    fn user_named(&mut self, name: String) -> usize {
        self.users.iter().position(|user| user.name == name).unwrap_or_else(|| {
            self.users.push(User { name, counts: [0; 4] });
            self.users.len() - 1
        })
    }

    pub fn add(&mut self, user: usize, kind: usize) {
        self.users[user].counts[kind] += 1;
        self.totals[kind] += 1;
    }

    pub fn remove(&mut self, user: usize, kind: usize) {
        self.users[user].counts[kind] -= 1;
        self.totals[kind] -= 1;
    }

    /// Whether a user may have one more of a kind. The last of each kind are the administrator's. If no connection or
    /// session is left for a user, one is taken from the user that has most, which must have at least two more; the
    /// administrator takes one from any user. Cleaners and collectors can't be taken, so a user gets one more only if
    /// it has fewer than are left.
    pub fn of(&self, user: usize, kind: usize) -> Share {
        let (left, has) = (self.most[kind].saturating_sub(self.totals[kind]), self.users[user].counts[kind]);
        let is_taken = kind == Kind::Session as usize || kind == CONNECTION;
        let (is_admin, limit) = (user == ADMINISTRATOR, self.of_user[kind]);
        if !is_admin && limit > 0 && has >= limit {
            return Share::None;
        }
        let least = if is_admin { 0 } else { self.kept[kind] + if is_taken { 0 } else { has } };
        if left > least {
            return Share::Left;
        }
        // Of those that have most, the first
        let others = self.users.iter().map(|user| user.counts[kind]).enumerate().skip(1);
        match others.rev().max_by_key(|other| other.1) {
            Some((richest, most)) if is_taken && most >= if is_admin { 1 } else { has + 2 } => {
                Share::TakenFrom(richest)
            }
            _ => Share::None,
        }
    }
}
