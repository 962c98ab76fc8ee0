//! bank FOLDER: the payments of the crate bank, over stores in files. The first run stops within a payment that was
//! prepared, and the second goes on from there. Together they print what the crate prints.
use argus::{Object, World};
use std::{env, error::Error, path::Path, process};

const SETUP: &str = r#"{"guardians":[
    {"objects":[{"record":{"balance":100}},{"record":{"balance":20}}]},
    {"objects":[{"record":{"balance":50}},{"record":{"balance":0}}]}]}"#;

const BRANCHES: [u32; 2] = [1, 2];

type Account = (&'static str, Object);

const ANN: Account = ("ann", (1, 1));
const BEN: Account = ("ben", (1, 2));
const CLEO: Account = ("cleo", (2, 1));
const DAN: Account = ("dan", (2, 2));

type Done<T> = Result<T, Box<dyn Error>>;

/// Why a payment is aborted.
type Aborted = &'static str;

/// An answer that neither refuses the step nor waits.
fn made(answer: String) -> Done<String> {
    if answer.starts_with("refused") || answer.starts_with("waits") {
        return Err(answer.into());
    }
    Ok(answer)
}

/// The action that the step has begun.
fn began(answer: String) -> Done<String> {
    Ok(made(answer)?.trim_start_matches("began ").to_string())
}

/// An answer that does not refuse the operation, unless it has to wait.
fn granted(answer: String) -> Done<Result<String, Aborted>> {
    if answer.starts_with("waits") {
        return Ok(Err("waits for other actions"));
    }
    Ok(Ok(made(answer)?))
}

fn balance_in(answer: &str) -> Done<i64> {
    Ok(answer.trim_start_matches("granted ").parse()?)
}

struct Bank(World);

impl Bank {
    fn tell_all(&mut self, action: &str) -> Done<()> {
        for branch in BRANCHES {
            made(self.0.tell(branch, action)?)?;
        }
        Ok(())
    }

    fn end_call(&mut self, call: &str, branch: u32, commits: bool) -> Done<()> {
        made(if commits { self.0.commit(call)? } else { self.0.abort(call)? })?;
        made(self.0.tell(branch, call)?)?;
        Ok(())
    }

    /// Adds the amount to the balance, or gives why not.
    fn add(&mut self, call: &str, object: Object, amount: i64) -> Done<Result<(), Aborted>> {
        let read = match granted(self.0.op(call, object, "get balance")?)? {
            Ok(read) => read,
            Err(why) => return Ok(Err(why)),
        };
        let balance = balance_in(&read)? + amount;
        if balance < 0 {
            return Ok(Err("too little money"));
        }
        Ok(granted(self.0.op(call, object, &format!("set balance {balance}"))?)?.map(|_| ()))
    }

    /// A handler: it adds the amount to the balance, and is aborted if that cannot be.
    fn change(&mut self, top: &str, object: Object, amount: i64) -> Done<Result<(), Aborted>> {
        let call = began(self.0.call(top, object.0)?)?;
        let added = self.add(&call, object, amount)?;
        self.end_call(&call, object.0, added.is_ok())?;
        Ok(added)
    }

    /// Moves the money in a new top action. If a handler is aborted, so is the top action.
    fn move_money(&mut self, from: Account, to: Account, amount: i64) -> Done<Result<String, Aborted>> {
        let top = began(self.0.top(from.1.0)?)?;
        for (account, amount) in [(from, -amount), (to, amount)] {
            if let Err(why) = self.change(&top, account.1, amount)? {
                made(self.0.abort(&top)?)?;
                self.tell_all(&top)?;
                return Ok(Err(why));
            }
        }
        Ok(Ok(top))
    }

    /// Closes the top action, and lets the branches vote. A no ends the votes.
    fn prepare(&mut self, top: &str) -> Done<bool> {
        made(self.0.close_top(top)?)?;
        for branch in BRANCHES {
            if made(self.0.prepare(branch, top)?)? != "vote yes" {
                return Ok(false);
            }
        }
        Ok(true)
    }

    /// Commits the top action by two phases, or aborts it after a no.
    fn commit(&mut self, top: &str) -> Done<bool> {
        let yes = self.prepare(top)?;
        made(if yes { self.0.decide(top)? } else { self.0.abort(top)? })?;
        self.tell_all(top)?;
        Ok(yes)
    }

    fn pay(&mut self, from: Account, to: Account, amount: i64) -> Done<()> {
        let outcome = match self.move_money(from, to, amount)? {
            Err(why) => format!("aborted, {why}"),
            Ok(top) if self.commit(&top)? => "paid".to_string(),
            Ok(_) => "aborted by a vote".to_string(),
        };
        println!("{} pays {} {amount}: {outcome}", from.0, to.0);
        Ok(())
    }

    /// The payee's branch crashes between the two phases. Before that, another payment has to wait.
    fn pay_over_a_crash(&mut self, from: Account, to: Account, amount: i64) -> Done<()> {
        let top = self.move_money(from, to, amount)??;
        assert!(self.prepare(&top)?);
        println!("{} pays {} {amount}: both branches vote yes", from.0, to.0);
        self.pay(BEN, DAN, 45)?;
        let branch = to.1.0;
        made(self.0.crash(branch)?)?;
        made(self.0.recover(branch)?)?;
        println!("branch {branch} crashes and recovers");
        made(self.0.decide(&top)?)?;
        self.tell_all(&top)?;
        println!("{} pays {} {amount}: paid", from.0, to.0);
        Ok(())
    }

    fn show(&mut self) -> Done<()> {
        let top = began(self.0.top(1)?)?;
        let mut balances = Vec::new();
        for (owner, object) in [ANN, BEN, CLEO, DAN] {
            let call = began(self.0.call(&top, object.0)?)?;
            balances.push((owner, balance_in(&made(self.0.op(&call, object, "get balance")?)?)?));
            self.end_call(&call, object.0, true)?;
        }
        assert!(self.commit(&top)?);
        for (owner, balance) in balances {
            println!("{owner} has {balance}");
        }
        Ok(())
    }
}

fn first(folder: &Path) -> Done<()> {
    let mut bank = Bank(World::over(folder, SETUP.as_bytes())?);
    bank.pay(ANN, CLEO, 30)?;
    bank.pay(BEN, DAN, 45)?;
    bank.pay_over_a_crash(CLEO, BEN, 25)?;
    let top = bank.move_money(BEN, DAN, 45)??;
    assert!(bank.prepare(&top)?);
    println!("the bank stops before ben pays dan 45 is decided, and opens again");
    process::exit(0)
}

fn main() -> Done<()> {
    let folder = env::args().nth(1).ok_or("bank FOLDER")?;
    let folder = Path::new(&folder);
    if !folder.join("g1.json").exists() {
        return first(folder);
    }
    let mut bank = Bank(World::reopen(folder, SETUP.as_bytes())?);
    bank.pay(BEN, DAN, 45)?;
    bank.show()
}
