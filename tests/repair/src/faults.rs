//! Rules with one known fault each. A run that does not notice them would reach too little, or compare too little.

use crate::memory::{Memory, Table};
use crate::rules::{
    self, answer_by, belongs, broken_rules, first_of_each_key, is_undamaged, met, met_in_order,
    rebuilt, repaired, Answer, Bucket, Chains, Limit, Rule,
};

pub type Model = fn(&Memory) -> Answer;

/// Verifiers and repairers that are wrong.
pub const FAULTS: [(&str, Model); 36] = [
    ("verify says no", |m| verifier(m, |_| false)),
    ("verify says yes", |m| verifier(m, |_| true)),
    ("verify says yes to a chain that does not end", |m| {
        verifier(m, |m| holds_but_for(m, &[Rule::ChainsEnd]))
    }),
    ("verify says yes to an entry on no chain", |m| {
        verifier(m, |m| holds_but_for(m, &[Rule::OnOneChainAtLeast]))
    }),
    ("verify says yes to a shared chain", |m| {
        verifier(m, yes_by_lengths)
    }),
    ("verify does not look at the free list", |m| {
        verifier(m, yes_without_the_free_list)
    }),
    ("verify says yes to a key twice in a table", |m| {
        verifier(m, |m| holds_but_for(m, &[Rule::KeysDifferInATable]))
    }),
    ("verify says yes to a key in both tables", |m| {
        verifier(m, |m| holds_but_for(m, &[Rule::KeysDifferBetweenTables]))
    }),
    ("verify says yes to a filled passed bucket", |m| {
        verifier(m, |m| holds_but_for(m, &[Rule::PassedBucketsEmpty]))
    }),
    ("verify says yes to a false old count", |m| {
        verifier(m, |m| {
            holds_but_for(m, &[Rule::OldCountTrue, Rule::ChainsWithinCounts])
        })
    }),
    ("verify says yes to a false new count", |m| {
        verifier(m, |m| {
            holds_but_for(m, &[Rule::NewCountTrue, Rule::ChainsWithinCounts])
        })
    }),
    ("verify adds up the two counts", |m| {
        verifier(m, yes_by_the_sum_of_the_counts)
    }),
    ("repair frees everything", |m| {
        repairer(m, |m| rebuilt(m, &emptied(met(m))))
    }),
    ("repair frees nothing", |m| repairer(m, Memory::clone)),
    ("repair keeps the last of two", |m| {
        repairer(m, |m| rebuilt(m, &last_of_each_key(m, met(m))))
    }),
    ("repair keeps both of two", |m| {
        repairer(m, |m| rebuilt(m, &met(m)))
    }),
    ("repair ends a chain at a key that it has", |m| {
        repairer(m, |m| rebuilt(m, &cut_at_a_known_key(m)))
    }),
    ("repair keeps a key out of its bucket", |m| {
        repairer(m, |m| rebuilt(m, &first_of_each_key(m, met_anywhere(m))))
    }),
    ("repair passes over a key out of its bucket", |m| {
        repairer(m, |m| rebuilt(m, &without_strays(m, met_anywhere(m))))
    }),
    ("repair drops a chain that is cut", |m| {
        repairer(m, |m| rebuilt(m, &whole_chains(m)))
    }),
    ("repair keeps an entry on no chain", |m| {
        repairer(m, |m| leaving_unmet(m, &repaired(m)))
    }),
    ("repair reads links that it has written", |m| {
        repairer(m, reading_own_links)
    }),
    ("repair meets an entry once in each table", |m| {
        repairer(m, |m| rebuilt(m, &met_by_table(m)))
    }),
    ("repair goes through the new table first", |m| {
        repairer(m, |m| {
            rebuilt(m, &first_of_each_key(m, met_in_order(m, new_first(m))))
        })
    }),
    ("repair leaves keys in freed entries", |m| {
        repairer(m, |m| with_freed(m, |m, entry| (m.key(entry), 0)))
    }),
    ("repair leaves values in freed entries", |m| {
        repairer(m, |m| with_freed(m, |m, entry| (0, m.value(entry))))
    }),
    ("repair's free list runs downwards", |m| {
        repairer(m, |m| with_free_list_downwards(&repaired(m)))
    }),
    ("repair forgets the next bucket", |m| {
        changed(m, |after| after.state.rehash_index = m.state.rehash_index)
    }),
    ("repair moves the next bucket on", |m| {
        changed(m, move_index_on)
    }),
    ("repair ends a rehash with no old key", |m| {
        changed(m, end_rehash)
    }),
    ("repair keeps the counts", |m| {
        changed(m, |after| {
            after.state.old_used = m.state.old_used;
            after.state.new_used = m.state.new_used;
        })
    }),
    ("repair counts what is met", |m| {
        changed(m, |after| count_met(m, after))
    }),
    ("repair ends the pauses", |m| {
        changed(m, |after| after.state.safe_iterators = 0)
    }),
    ("repair clears behind the tables", |m| {
        changed(m, clear_behind)
    }),
    ("repair refuses what is damaged", |m| {
        let right = rules::answer(m);
        match right.undamaged {
            1 => right,
            _ => refused(m),
        }
    }),
    ("the first buffer is current", |m| {
        let mut other = m.clone();
        other.state.second_is_current = false;
        let mut answer = rules::answer(&other);
        answer.after.state.second_is_current = m.state.second_is_current;
        answer
    }),
];

/// Takes a state for sound though it breaks this limit, and no other.
pub fn takes_for_sound(memory: &Memory, limit: Limit) -> Answer {
    match rules::broken_limits(memory)[..] {
        [broken] if broken == limit => Answer {
            verify: 0,
            repair: 0,
            ..refused(memory)
        },
        _ => rules::answer(memory),
    }
}

fn refused(memory: &Memory) -> Answer {
    Answer {
        verify: rules::BAD_STATE,
        undamaged: 0,
        repair: rules::BAD_STATE,
        after: memory.clone(),
    }
}

fn verifier(memory: &Memory, verify: impl Fn(&Memory) -> bool) -> Answer {
    answer_by(memory, verify, repaired)
}

fn repairer(memory: &Memory, repair: impl Fn(&Memory) -> Memory) -> Answer {
    answer_by(memory, is_undamaged, repair)
}

/// A repair with something done behind it.
fn changed(memory: &Memory, change: impl Fn(&mut Memory)) -> Answer {
    repairer(memory, |memory| {
        let mut after = repaired(memory);
        change(&mut after);
        after
    })
}

fn holds_but_for(memory: &Memory, ignored: &[Rule]) -> bool {
    let broken = broken_rules(memory);
    broken.iter().all(|rule| ignored.contains(rule))
}

/// As many entries on all chains as there are, and no look at which.
fn yes_by_lengths(memory: &Memory) -> bool {
    let Some(chains) = Chains::of(memory) else {
        return false;
    };
    let held: usize = chains
        .buckets
        .iter()
        .map(|bucket| bucket.entries.len())
        .sum();
    held + chains.free.len() == memory.state.capacity as usize
        && holds_but_for(memory, &[Rule::OnOneChainAtMost, Rule::OnOneChainAtLeast])
}

/// Says yes if there is a free list with which the store is undamaged.
fn yes_without_the_free_list(memory: &Memory) -> bool {
    let mut other = memory.clone();
    other.state.free_head = 0;
    let Some(chains) = Chains::of(&other) else {
        return false;
    };
    let held: Vec<u32> = chains
        .buckets
        .into_iter()
        .flat_map(|bucket| bucket.entries)
        .collect();
    for entry in (1..=memory.state.capacity).filter(|entry| !held.contains(entry)) {
        other.set_link(entry, other.state.free_head);
        other.state.free_head = entry;
    }
    is_undamaged(&other)
}

fn yes_by_the_sum_of_the_counts(memory: &Memory) -> bool {
    let Some(chains) = Chains::of(memory) else {
        return false;
    };
    let [old, new] = [Table::Old, Table::New].map(|table| chains.entries_of(table).len() as u32);
    let s = &memory.state;
    old + new == s.old_used + s.new_used
        && holds_but_for(
            memory,
            &[
                Rule::OldCountTrue,
                Rule::NewCountTrue,
                Rule::ChainsWithinCounts,
            ],
        )
}

fn emptied(mut chains: Vec<Bucket>) -> Vec<Bucket> {
    chains.iter_mut().for_each(|bucket| bucket.entries.clear());
    chains
}

fn last_of_each_key(memory: &Memory, mut chains: Vec<Bucket>) -> Vec<Bucket> {
    let reverse = |chains: &mut Vec<Bucket>| {
        chains.reverse();
        chains
            .iter_mut()
            .for_each(|bucket| bucket.entries.reverse());
    };
    reverse(&mut chains);
    let mut kept = first_of_each_key(memory, chains);
    reverse(&mut kept);
    kept
}

/// Goes through the buckets with other rules of where a chain ends: `goes_on` is given the table, the bucket, the entry and
/// all that were met before it.
fn met_while(
    memory: &Memory,
    goes_on: impl Fn(Table, u32, u32, &[(Table, u32)]) -> bool,
) -> Vec<Bucket> {
    let mut already = Vec::new();
    let mut chains = Vec::new();
    for (table, bucket) in memory.buckets() {
        let mut entries = Vec::new();
        let mut at = memory.head(table, bucket);
        while (1..=memory.state.capacity).contains(&at) && goes_on(table, bucket, at, &already) {
            already.push((table, at));
            entries.push(at);
            at = memory.link(at);
        }
        chains.push(Bucket {
            table,
            bucket,
            entries,
        });
    }
    chains
}

fn is_new(entry: u32, already: &[(Table, u32)]) -> bool {
    already.iter().all(|&(_, met)| met != entry)
}

fn met_anywhere(memory: &Memory) -> Vec<Bucket> {
    met_while(memory, |_, _, entry, already| is_new(entry, already))
}

fn met_by_table(memory: &Memory) -> Vec<Bucket> {
    let chains = met_while(memory, |table, bucket, entry, already| {
        !already.contains(&(table, entry)) && belongs(memory, table, bucket, memory.key(entry))
    });
    // The second time an entry is met its key is known.
    first_of_each_key(memory, chains)
}

fn cut_at_a_known_key(memory: &Memory) -> Vec<Bucket> {
    met_while(memory, |table, bucket, entry, already| {
        let key = memory.key(entry);
        is_new(entry, already)
            && belongs(memory, table, bucket, key)
            && already.iter().all(|&(_, met)| memory.key(met) != key)
    })
}

fn without_strays(memory: &Memory, mut chains: Vec<Bucket>) -> Vec<Bucket> {
    for Bucket {
        table,
        bucket,
        entries,
    } in &mut chains
    {
        entries.retain(|&entry| belongs(memory, *table, *bucket, memory.key(entry)));
    }
    first_of_each_key(memory, chains)
}

/// The chains that end in 0; of the others nothing.
fn whole_chains(memory: &Memory) -> Vec<Bucket> {
    let mut chains = met(memory);
    for bucket in &mut chains {
        if bucket
            .entries
            .last()
            .is_some_and(|&last| memory.link(last) != 0)
        {
            bucket.entries.clear();
        }
    }
    first_of_each_key(memory, chains)
}

/// What was on no chain keeps its key and value.
fn leaving_unmet(before: &Memory, after: &Memory) -> Memory {
    let met: Vec<u32> = met(before)
        .into_iter()
        .flat_map(|bucket| bucket.entries)
        .collect();
    let mut after = after.clone();
    for entry in (1..=before.state.capacity).filter(|entry| !met.contains(entry)) {
        after.set_key(entry, before.key(entry));
        after.set_value(entry, before.value(entry));
    }
    after
}

/// Frees what it does not keep on the way, and goes on by the link of an entry that it has just freed.
fn reading_own_links(memory: &Memory) -> Memory {
    let mut written = memory.clone();
    let mut free_head = 0;
    let (mut already, mut keys) = (Vec::new(), Vec::new());
    let mut kept = Vec::new();
    for (table, bucket) in memory.buckets() {
        let mut entries = Vec::new();
        let mut at = memory.head(table, bucket);
        while (1..=memory.state.capacity).contains(&at)
            && !already.contains(&at)
            && belongs(memory, table, bucket, memory.key(at))
        {
            already.push(at);
            if keys.contains(&memory.key(at)) {
                written.set_link(at, free_head);
                free_head = at;
            } else {
                keys.push(memory.key(at));
                entries.push(at);
            }
            at = written.link(at);
        }
        kept.push(Bucket {
            table,
            bucket,
            entries,
        });
    }
    rebuilt(memory, &kept)
}

fn new_first(memory: &Memory) -> Vec<(Table, u32)> {
    let mut buckets = memory.buckets();
    buckets.rotate_left(memory.state.old_size as usize);
    buckets
}

/// The freed entries with another key and value.
fn with_freed(memory: &Memory, left: impl Fn(&Memory, u32) -> (u32, u32)) -> Memory {
    let mut after = repaired(memory);
    for entry in free_list(&after) {
        let (key, value) = left(memory, entry);
        after.set_key(entry, key);
        after.set_value(entry, value);
    }
    after
}

fn free_list(after: &Memory) -> Vec<u32> {
    Chains::of(after).map_or(Vec::new(), |chains| chains.free)
}

fn with_free_list_downwards(after: &Memory) -> Memory {
    let mut other = after.clone();
    let mut next = 0;
    for entry in free_list(after) {
        other.set_link(entry, next);
        next = entry;
    }
    other.state.free_head = next;
    other
}

/// To the first filled bucket also where that lies behind it.
fn move_index_on(after: &mut Memory) {
    let s = after.state;
    if s.rehashing {
        let mut buckets = 0..s.old_size;
        let filled = buckets.find(|&bucket| after.head(Table::Old, bucket) != 0);
        after.state.rehash_index = filled.unwrap_or(s.old_size);
    }
}

/// As the next step would.
fn end_rehash(after: &mut Memory) {
    let s = &mut after.state;
    if s.rehashing && s.old_used == 0 {
        s.second_is_current = !s.second_is_current;
        (s.old_size, s.old_used) = (s.new_size, s.new_used);
        (s.new_size, s.new_used, s.rehash_index) = (0, 0, 0);
        s.rehashing = false;
    }
}

fn count_met(before: &Memory, after: &mut Memory) {
    let chains = met(before);
    let count = |table| {
        let of_table = chains.iter().filter(|bucket| bucket.table == table);
        of_table.map(|bucket| bucket.entries.len() as u32).sum()
    };
    after.state.old_used = count(Table::Old);
    after.state.new_used = count(Table::New);
}

fn clear_behind(after: &mut Memory) {
    for table in [Table::Old, Table::New] {
        let size = after.state.size(table) as usize;
        let length = after.length(table);
        after.buffer_mut(table)[size..length].fill(0);
    }
}
