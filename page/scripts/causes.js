// What goes wrong where a claim fails. Why the run came there the program says: the causes of the verdict.

// What goes wrong, as a sentence.
function failureOf(claim, run) {
  const { kind, about, ended } = subjectOf(claim);
  const { status, beganAt, endedAt, threwAt, thrown } = run;
  const [one, other] = about;
  const isOpen = !hasEnded(status[one]);
  const [words, parts] = {
    final: () => ["final", { status: status[one] }],
    never: () => ["never", {}],
    after: () => {
      const words = { task: other, other: one, status: status[one], event: endedAt[one] };
      return [isOpen ? "afterOpen" : "afterEnded", words];
    },
    excludes: () => ["excludes", { other, event: beganAt[one], second: beganAt[other] }],
    runs: () => [isOpen ? "runs" : "runsCanceled", { event: endedAt[one] }],
    observed: () => ["observed", { event: threwAt[one], exception: thrown[one] }],
  }[kind]();
  const premises = ended.filter((id) => hasEnded(status[id]));
  const kept = premises.flatMap((id) => sentence(FAILURES.given, { task: id, status: status[id] }));
  return [...sentence(FAILURES[words], { task: one, ...parts }), ...kept];
}
