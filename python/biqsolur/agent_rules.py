"""The faults of a study's agents: rules 25 to 29."""

from __future__ import annotations

from biqsolur.rule_words import (
    AGENT, AGENT_MAY, AGENTS, DAY_END, EVERY, NUMBER, Table, group_fault, is_number, key_faults, kind_fault,
    range_fault, range_faults, shown, stock_fault)


def count_faults(study: Table, place: int) -> list[str]:
    """Rule 25."""
    agents = study["agent"]
    if not agents:
        return ["there is no `[[agent]]` table, and there is to be at least one"]
    count = agents[place].get("count", 1)
    if not is_number(count) or not 1 <= count <= 511:
        return [f"`count` is {shown(count)}, and is to be a whole number from 1 to 511"]
    before = sum(agent.get("count", 1) for agent in agents[:place])
    return [f"`count` is {count}, and is to be at most {511 - before}: the tables above have {before} traders, and all "
            "together are to be at most 511"]


def agent_faults(study: Table, rule: int, place: int) -> list[str]:
    """Rules 26 to 29."""
    agent = study["agent"][place]
    kind = agent.get("kind")
    if rule == 26:
        wrong = kind_fault(kind, AGENTS) if "kind" in agent else []
        if wrong:
            return wrong
        own = AGENTS.get(kind, ())
        faults = key_faults(agent, {**AGENT, **dict.fromkeys(own, NUMBER)}, AGENT_MAY)
        others = {key: [name for name, keys in AGENTS.items() if key in keys]
                  for keys in AGENTS.values() for key in keys}
        return [f"`{key}` is a key of {', '.join(others[key])}, and of no {kind}" for key in agent
                if key in others and key not in own and kind in AGENTS] + faults
    if rule == 27:
        faults = group_fault("group", agent["group"], study)
        if agent["first"] < study["open"]:
            faults.append(f"`first` is {agent['first']:,}, and is to be at least `open`, {study['open']:,}")
        faults += range_fault("every", agent["every"], EVERY) + range_faults(agent, ("spread", "delay", "wobble"))
        last = agent["first"] + (agent.get("count", 1) - 1) * agent.get("spread", 0)
        if last > DAY_END:
            faults.append(f"its last trader would first wake at `first` + (`count` - 1) * `spread` = {last:,}, and is "
                          f"to do so at {DAY_END:,} at most")
        return faults
    if rule == 28:
        return stock_fault(agent["stock"], study)
    faults = range_faults(agent, AGENTS[kind])
    if kind == "momentum" and not faults:
        faults = [f"`short` is {agent['short']}, and is to be below `long`, which is {agent['long']}"]
    return faults
