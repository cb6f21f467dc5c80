// A run, event by event, by the rules of docs/PROFILE.md. It is played only to be shown: the program made the run and checked it.

class Run {
  constructor({ inputs, journal }) {
    this.inputs = new Map(Object.entries(inputs || {}));
    this.journal = journal;
    this.events = [];
    this.opening = tasks.map(openingStatus);
    this.status = [...this.opening];
    this.rest = tasks.map((task) => [...(task.body || [])]);
    this.askedAt = new Map();
    this.startedAt = new Map();
    // by task: the numbers of events, 0 where there is none
    this.beganAt = tasks.map(() => 0);
    this.endedAt = tasks.map(() => 0);
    this.threwAt = tasks.map(() => 0);
    // by task: what its body threw, whether it saw its own token requested, and whose exceptions it ended with
    this.thrown = tasks.map(() => "");
    this.acknowledges = tasks.map(() => false);
    this.carried = tasks.map(() => []);
    for (const line of journal.split("\n")) if (line) this.play(line);
  }

  // Adds the event of a line of the journal.
  play(line) {
    const [actor, act, what, answer] = line.split(" ");
    const event = { number: this.events.length + 1, actor, act, changes: [], sentence: [], isBad: false };
    this.events.push(event);
    if (act === "request") {
      this.ask(what, event);
      event.token = what;
      this.say(event, "request", { token: what });
      return;
    }
    event.task = idOf.get(what);
    this[act](event, event.task, answer);
  }

  // Begins a task that was started, or that became ready.
  begin(event, id) {
    this.beganAt[id] = event.number;
    this.change(event, id, RUNNING);
    this.say(event, "begin");
  }

  // Makes a continuation ready.
  release(event, id) {
    const antecedent = idOf.get(tasks[id].after);
    this.change(event, id, READY);
    this.say(event, "release", { other: antecedent, status: this.status[antecedent] });
  }

  // Plays the next statement of a body.
  step(event, id) {
    const statement = this.rest[id].shift();
    const isBranch = (word) => word === "then" || word === "else";
    const word = typeof statement === "string" ? statement : Object.keys(statement).find((key) => !isBranch(key));
    STATEMENTS[word](this, event, id, statement);
  }

  // A job is done, or fails.
  worked(event, id, answer) {
    const site = this.rest[id].shift().work;
    event.isBad = answer === "failed";
    if (event.isBad) this.throw(event, id, `WorkFailed(${site})`);
    this.say(event, event.isBad ? "failed" : "worked", { site });
  }

  // A body is over: the task ends, or waits for children.
  leave(event, id) {
    const open = this.attachedTo(id).filter((child) => !hasEnded(this.status[child]));
    if (open.length) this.change(event, id, WITH_CHILDREN);
    else this.finish(event, id);
    const more = open.length > 1 ? WORDS.andMore(open.length - 1) : "";
    this.say(event, open.length ? "wait" : "leave", { child: open[0], more, status: this.status[id] });
  }

  // A task that waited for its children ends.
  close(event, id) {
    const children = this.attachedTo(id);
    const bad = children.find((child) => this.status[child] === FAULTED);
    this.finish(event, id);
    const isSince = this.status[id] === FAULTED && !this.thrown[id];
    this.say(event, isSince ? "closeSince" : "close", { other: bad, status: this.status[id] });
  }

  // A task is canceled before it begins: its antecedent ended otherwise than it asks for, or its token is requested.
  drop(event, id) {
    const task = tasks[id];
    const antecedent = task.kind === "then" ? idOf.get(task.after) : undefined;
    const ends = allowedEnds(task);
    const status = this.status[antecedent];
    const isMisfit = hasEnded(status) && !ends.includes(STATUSES[status]);
    this.change(event, id, CANCELED);
    const [how, end] = conditionWords(ends).split(" ");
    this.say(event, isMisfit ? "misfit" : "drop", { other: antecedent, how, end, status, token: task.token });
  }

  // A WhenAll or a WhenAny ends.
  settle(event, id) {
    const ended = tasks[id].of.map((name) => idOf.get(name)).filter((other) => hasEnded(this.status[other]));
    ended.sort((one, other) => this.endedAt[one] - this.endedAt[other]);
    if (tasks[id].kind === "any") this.settleAny(event, id, ended[0]);
    else this.settleAll(event, id, ended);
  }

  settleAny(event, id, winner) {
    this.change(event, id, RAN);
    this.say(event, "first", { other: winner });
  }

  settleAll(event, id, ended) {
    const of = (status) => ended.find((other) => this.status[other] === status);
    const bad = of(FAULTED) ?? of(CANCELED);
    this.carried[id] = [...new Set(tasks[id].of.flatMap((name) => this.carried[idOf.get(name)]))];
    this.change(event, id, bad === undefined ? RAN : this.status[bad]);
    this.say(event, bad === undefined ? "settle" : "settleSince", { other: bad, status: this.status[id] });
  }

  say(event, word, parts) {
    event.sentence = sentence(EVENTS[word], { task: event.task, ...parts });
  }

  change(event, id, status) {
    if (this.status[id] !== status) event.changes.push([id, status]);
    this.status[id] = status;
    if (hasEnded(status)) this.endedAt[id] = event.number;
  }

  throw(event, id, exception) {
    this.thrown[id] = exception;
    this.threwAt[id] = event.number;
    this.rest[id] = [];
  }

  // A task whose body is over ends, by what it threw, by its attached children, and by its token.
  finish(event, id) {
    const own = this.thrown[id] ? [id] : [];
    this.carried[id] = [...new Set([...own, ...this.attachedTo(id).flatMap((child) => this.carried[child])])];
    this.change(event, id, this.carried[id].length ? FAULTED : this.acknowledges[id] ? CANCELED : RAN);
  }

  attachedTo(id) {
    return childrenOf[id].filter((child) => isAttached(child) && this.startedAt.has(child));
  }

  ask(token, event) {
    if (!this.askedAt.has(token)) this.askedAt.set(token, event.number);
  }

  // The event by which a token is requested, itself or by one that it is linked to; 0 where it isn't.
  requestOf(token) {
    if (this.askedAt.has(token)) return this.askedAt.get(token);
    const numbers = (tokenOf.get(token)?.linked || []).map((name) => this.requestOf(name)).filter(Boolean);
    return numbers.length ? Math.min(...numbers) : 0;
  }

  // The task whose end a continuation looks at: its antecedent, or the winner where that is a WhenAny.
  antecedentOf(id) {
    const antecedent = idOf.get(tasks[id].after);
    if (tasks[antecedent].kind !== "any") return antecedent;
    const ended = tasks[antecedent].of.map((name) => idOf.get(name)).filter((other) => hasEnded(this.status[other]));
    return ended.reduce((one, other) => (this.endedAt[other] < this.endedAt[one] ? other : one));
  }

  // How each task stands behind so many events, and which tokens are requested then.
  statusAt(count) {
    const status = [...this.opening];
    for (const event of this.events.slice(0, count)) for (const [id, next] of event.changes) status[id] = next;
    return status;
  }

  requestedAt(count) {
    const isRequested = (token) => this.requestOf(token.name) && this.requestOf(token.name) <= count;
    return new Set(tokens.filter(isRequested).map((token) => token.name));
  }
}

function openingStatus(task) {
  if (task.kind === "all" && !task.of.length) return RAN;
  return { root: READY, child: CREATED }[task.kind] ?? WAITING;
}

const STATEMENTS = {
  return(run, event, id) {
    run.rest[id] = [];
    run.say(event, "return");
  },
  throw(run, event, id, statement) {
    run.throw(event, id, statement.throw);
    run.say(event, "throw", { exception: statement.throw });
  },
  check(run, event, id, { check: token }) {
    const request = run.requestOf(token);
    const isOwn = tasks[id].token === token;
    run.say(event, !request ? "checkInVain" : isOwn ? "checkOwn" : "checkOther", { token });
    if (!request) return;
    if (!isOwn) return run.throw(event, id, `OperationCanceled(${token})`);
    run.acknowledges[id] = true;
    run.rest[id] = [];
  },
  cancel(run, event, id, { cancel: token }) {
    run.ask(token, event);
    run.say(event, "cancel", { token });
  },
  start(run, event, id, statement) {
    const child = idOf.get(statement.start);
    run.startedAt.set(child, event.number);
    run.change(event, child, READY);
    run.say(event, "start", { child });
  },
  observe(run, event, id) {
    const other = run.antecedentOf(id);
    run.say(event, run.carried[other].length ? "observe" : "observeInVain", { other });
  },
  if(run, event, id, statement) {
    const value = run.inputs.get(statement.if);
    run.rest[id] = [...((value ? statement.then : statement.else) || []), ...run.rest[id]];
    run.say(event, "if", { input: statement.if, value: String(value) });
  },
  when(run, event, id, statement) {
    const other = run.antecedentOf(id);
    const isSo = STATUSES[run.status[other]] === statement.when;
    run.rest[id] = [...((isSo ? statement.then : statement.else) || []), ...run.rest[id]];
    run.say(event, "when", { other, status: run.status[other] });
  },
};
