-- What a store keeps of each account, beside what its other tables come to, and what its tables have, beside what the
-- accepted requests say:
--
--     sqlite3 copy.db < examples/recompute.sql
--
-- Nothing is told where they are equal. Else a line has what it is of, the firm or the list, the month or the day,
-- whether it is kept or recomputed, and its values. docs/formats.md says of each what it tells, and what isn't looked
-- at.

-- Tables of this look alone, which the file doesn't get.
DROP TABLE IF EXISTS temp.terms;
DROP TABLE IF EXISTS temp.reported;
DROP TABLE IF EXISTS temp.sent;
DROP TABLE IF EXISTS temp.came;
DROP TABLE IF EXISTS temp.paid;
DROP TABLE IF EXISTS temp.registered;
DROP TABLE IF EXISTS temp.ended;
DROP TABLE IF EXISTS temp.withdrawn;
DROP TABLE IF EXISTS temp.earned;
DROP TABLE IF EXISTS temp.changed;
DROP TABLE IF EXISTS temp.stood;
DROP TABLE IF EXISTS temp.owed;
DROP TABLE IF EXISTS temp.payment;
DROP TABLE IF EXISTS temp.figures;
CREATE TEMP TABLE terms (
  month INTEGER PRIMARY KEY, contribution INTEGER, interest INTEGER, entitlement INTEGER, reported_by INTEGER,
  due INTEGER);
CREATE TEMP TABLE reported (employer INTEGER, month INTEGER, version INTEGER, cents INTEGER, day INTEGER, lines TEXT);
CREATE TEMP TABLE sent (file INTEGER, day INTEGER, new INTEGER, place INTEGER, reference TEXT, said TEXT);
CREATE TEMP TABLE came (reference TEXT, file INTEGER, day INTEGER, place INTEGER, serial INTEGER);
CREATE TEMP TABLE paid (
  employer INTEGER, purpose TEXT, day INTEGER, serial INTEGER, cents INTEGER, request TEXT, since INTEGER);
CREATE TEMP TABLE registered (employer INTEGER PRIMARY KEY, since INTEGER);
CREATE TEMP TABLE ended (employer INTEGER, since INTEGER);
CREATE TEMP TABLE withdrawn (no INTEGER PRIMARY KEY, since INTEGER);
CREATE TEMP TABLE earned (employer INTEGER, worker INTEGER, cents INTEGER, since INTEGER, till INTEGER);
CREATE TEMP TABLE changed (employer INTEGER, day INTEGER, changes INTEGER);
CREATE TEMP TABLE stood (
  id INTEGER PRIMARY KEY, run INTEGER, claim INTEGER, employer INTEGER, day INTEGER, known INTEGER);
CREATE TEMP TABLE owed (id INTEGER, month INTEGER, cents INTEGER, till INTEGER);
CREATE TEMP TABLE payment (id INTEGER, day INTEGER, is_last INTEGER, cents INTEGER, till INTEGER);
CREATE TEMP TABLE figures (
  run INTEGER, claim INTEGER, employer INTEGER, missing INTEGER, first INTEGER, arrears INTEGER, interest INTEGER);
CREATE INDEX temp.reported_by_month ON reported (employer, month, version);
CREATE INDEX temp.sent_by_reference ON sent (reference);
CREATE INDEX temp.came_by_reference ON came (reference);
CREATE INDEX temp.earned_by_worker ON earned (worker);
CREATE INDEX temp.paid_by_employer ON paid (employer, purpose);
CREATE INDEX temp.payment_by_id ON payment (id);

-- Of each month its rates, and the days by which its report is to be in and its contribution is due, up to the month of
-- the last request or some more: 365 times 30 days reach from 1970 to 2000, and all months but February have as many.
INSERT INTO temp.terms WITH RECURSIVE
  months(month) AS (SELECT min(first) FROM rates UNION ALL
    SELECT month + 1 FROM months WHERE month < min(2399, (SELECT max(day) FROM requests) / 30 - 365))
SELECT month, contribution, interest, entitlement, strftime('%s', next || printf('%02d', report_day)) / 86400,
  strftime('%s', next || printf('%02d', due_day)) / 86400
FROM (SELECT month, printf('%d-%02d-', 2000 + (month + 1) / 12, (month + 1) % 12 + 1) AS next FROM months)
JOIN rates ON first = (SELECT max(first) FROM rates WHERE first <= month);

-- The accepted reports and corrections, each with the contribution that was answered, and its lines between blanks.
INSERT INTO temp.reported
SELECT employer, month, a, b, day, CASE WHEN said GLOB front || ' *' THEN substr(said, length(front) + 1) END
FROM (
  SELECT *, CASE a WHEN 1 THEN 'report ' ELSE 'correct ' END || employer
    || printf(' %d-%02d', 2000 + month / 12, month % 12 + 1) || CASE a WHEN 1 THEN '' ELSE ' ' || (a - 1) END AS front
  FROM (
    SELECT a, b, day, said, CAST(rest AS INTEGER) AS employer,
      substr(rest, instr(rest, ' ') + 1, 4) * 12 + substr(rest, instr(rest, ' ') + 6, 2) - 24001 AS month
    FROM (SELECT a, b, day, said, substr(said, instr(said, ' ') + 1) AS rest
      FROM (SELECT a, b, day, CAST(command AS TEXT) || ' ' AS said FROM requests WHERE kind = 2))));

-- The records of the accepted bank files, each as a JSON array of six texts. No field of theirs has a byte below 0x20,
-- so each line is a record, nor 0x7F, which stands for other bytes here. A line without quotes is taken apart at once,
-- one with quotes field by field: `quoted` is what stood in quotes at the front of the next field, `rest` what comes
-- behind.
INSERT INTO temp.sent WITH RECURSIVE
  record(file, day, new, place, text) AS (
    SELECT number, day, a, line.key, line.value
    FROM requests, json_each('[' || replace(json_quote(replace(replace(CAST(substr(command, 6) AS TEXT),
      char(13), char(127)), char(10), char(127))), char(127), '","') || ']') AS line
    -- The header is line 0.
    WHERE kind = 3 AND line.key > 0 AND line.value <> ''),
  field(file, day, new, place, said, quoted, rest) AS (
    SELECT file, day, new, place,
      CASE WHEN instr(text, '"') THEN '[]' ELSE '[' || replace(json_quote(text), ',', '","') || ']' END,
      '', CASE WHEN instr(text, '"') THEN text END
    FROM record
    UNION ALL
    SELECT file, day, new, place, json_insert(said, '$[#]', quoted || substr(rest, 1, instr(rest || ',', ',') - 1)),
      '', CASE WHEN instr(rest, ',') THEN substr(rest, instr(rest, ',') + 1) END
    FROM field WHERE substr(rest, 1, 1) <> '"'
    UNION ALL
    SELECT file, day, new, place, said,
      replace(substr(behind.value, 1, instr(behind.value || '"', '"') - 1), char(127), '"'),
      replace(substr(behind.value, instr(behind.value || '"', '"') + 1), char(127), '""')
    FROM field, json_each(json_array(replace(substr(rest, 2), '""', char(127)))) AS behind
    WHERE substr(rest, 1, 1) = '"')
SELECT file, day, new, place, json_extract(said, '$[0]'),
  CASE json_extract(said, '$[4]') WHEN '' THEN json_set(said, '$[4]', 'C') ELSE said END
FROM field WHERE rest IS NULL;

SELECT 'contribution', employer, printf('%d-%02d', 2000 + month / 12, month % 12 + 1),
  CASE WHEN sum(side) > 0 THEN 'kept' ELSE 'recomputed' END, date(due * 86400, 'unixepoch'), cents
FROM (
  SELECT employer, month, due, cents, 1 AS side FROM charges
  UNION ALL
  SELECT employer, month, due,
    (coalesce((SELECT sum(line.gross) FROM wages AS line
      WHERE line.employer = reports.employer AND line.month = reports.month), 0) * contribution + 5000) / 10000, -1
  FROM reports LEFT JOIN terms USING (month))
GROUP BY employer, month, due, cents HAVING sum(side) <> 0;

SELECT 'payment', employer, date(day * 86400, 'unixepoch'),
  CASE WHEN sum(side) > 0 THEN 'kept' ELSE 'recomputed' END, purpose, cents, ref
FROM (
  -- The serial of a release stands in no other table.
  SELECT employer, purpose, day, CASE WHEN ref LIKE 'set-off %' THEN 0 ELSE serial END AS serial,
    cents, ref, 1 AS side FROM credits
  UNION ALL
  SELECT employer, purpose, value, serial, cents, reference, -1 FROM bank WHERE employer IS NOT NULL
  UNION ALL
  SELECT employer, 'C', released, 0, to_contributions, 'set-off ' || no, -1 FROM claims
    WHERE to_contributions <> 0
  UNION ALL
  SELECT employer, 'I', released, 0, to_interest, 'set-off ' || no, -1 FROM claims WHERE to_interest <> 0)
GROUP BY employer, purpose, day, serial, cents, ref HAVING sum(side) <> 0;

SELECT 'piece', employer, printf('%d-%02d', 2000 + month / 12, month % 12 + 1),
  CASE WHEN sum(side) > 0 THEN 'kept' ELSE 'recomputed' END, date(day * 86400, 'unixepoch'), cents, ref
FROM (
  SELECT employer, month, day, serial, cents, ref, 1 AS side FROM pieces
  UNION ALL
  -- Payments in order pay contributions in order, cent by cent.
  SELECT owed.employer, owed.month, paid.day, paid.serial,
    min(owed.till, paid.till) - max(owed.till - owed.cents, paid.till - paid.cents), paid.ref, -1
  FROM (
    SELECT employer, month, cents, sum(cents) OVER (PARTITION BY employer ORDER BY month) AS till
    FROM charges) AS owed
  JOIN (
    SELECT employer, day, serial, cents, ref,
      sum(cents) OVER (PARTITION BY employer ORDER BY day, serial) AS till
    FROM credits WHERE purpose = 'C') AS paid
  ON paid.employer = owed.employer AND paid.till > owed.till - owed.cents
    AND owed.till > paid.till - paid.cents
  WHERE owed.cents > 0)
GROUP BY employer, month, day, serial, cents, ref HAVING sum(side) <> 0;

SELECT 'paid', employer, printf('%d-%02d', 2000 + month / 12, month % 12 + 1),
  CASE WHEN sum(side) > 0 THEN 'kept' ELSE 'recomputed' END, open, weight
FROM (
  SELECT employer, month, open, weight, 1 AS side FROM charges
  UNION ALL
  -- The months begun from the due day, which is a 28th at most, until the day of the payment.
  SELECT owed.employer, owed.month, owed.cents - coalesce(sum(piece.cents), 0),
    coalesce(sum(piece.cents * max(0,
      12 * (strftime('%Y', piece.day * 86400, 'unixepoch') - strftime('%Y', owed.due * 86400, 'unixepoch'))
      + strftime('%m', piece.day * 86400, 'unixepoch') - strftime('%m', owed.due * 86400, 'unixepoch')
      + (strftime('%d', piece.day * 86400, 'unixepoch') > strftime('%d', owed.due * 86400, 'unixepoch')))), 0),
    -1
  FROM charges AS owed
  LEFT JOIN pieces AS piece ON piece.employer = owed.employer AND piece.month = owed.month
  GROUP BY owed.employer, owed.month)
GROUP BY employer, month, open, weight HAVING sum(side) <> 0;

SELECT 'release', employer, no, 'kept', cents, to_contributions, to_interest, paid
FROM claims WHERE CASE state WHEN 2 THEN cents ELSE 0 END <> to_contributions + to_interest + paid
  OR (state = 2) = (released IS NULL) OR state NOT BETWEEN 0 AND 2;

SELECT 'list', no, date(max(day) * 86400, 'unixepoch'),
  CASE WHEN sum(side) > 0 THEN 'kept' ELSE 'recomputed' END, items, total
FROM (
  SELECT no, day, items, total, 1 AS side FROM lists
  UNION ALL
  SELECT list, NULL, count(*), sum(paid), -1 FROM claims WHERE list IS NOT NULL GROUP BY list)
GROUP BY no, items, total HAVING sum(side) <> 0;

-- A claim of which something is paid out comes on the first list behind its release, which may be of the same day, and
-- no other claim comes on any.
SELECT 'listed', employer, claims.no, 'kept', list, date(released * 86400, 'unixepoch'), paid
FROM claims LEFT JOIN lists ON lists.no = list
WHERE paid = 0 AND list IS NOT NULL OR lists.day < released
  OR released < (SELECT day FROM lists WHERE no = list - 1)
  OR paid > 0 AND list IS NULL AND released < (SELECT max(day) FROM lists);

WITH request AS (SELECT kind, a, b, CAST(substr(command, 1, 9) AS TEXT) AS verb FROM requests)
SELECT 'requests', what, 'kept', kept, 'recomputed', recomputed FROM (
  SELECT 'requests' AS what, (SELECT entries FROM meta) AS kept, (SELECT count(*) FROM requests) AS recomputed
  UNION ALL
  SELECT 'schema', (SELECT group_concat(schema * one) FROM meta), '1'
  UNION ALL
  SELECT 'ledger day', (SELECT date(day * 86400, 'unixepoch') FROM meta),
    (SELECT date(max(day) * 86400, 'unixepoch') FROM requests)
  UNION ALL
  SELECT 'last serial', (SELECT serial FROM meta),
    (SELECT count(*) FROM bank) + (SELECT count(*) FROM claims WHERE state = 2)
  UNION ALL
  SELECT 'last claim', (SELECT claims FROM meta), (SELECT coalesce(max(no), 0) FROM claims)
  UNION ALL
  SELECT 'last list', (SELECT lists FROM meta), (SELECT coalesce(max(no), 0) FROM lists)
  UNION ALL
  SELECT 'last run', (SELECT runs FROM meta), (SELECT coalesce(max(no), 0) FROM runs)
  UNION ALL
  SELECT 'firms', count(*), (SELECT count(*) FROM request WHERE verb LIKE 'employer %') FROM employers
  UNION ALL
  SELECT 'ends', count(last), (SELECT count(*) FROM request WHERE verb LIKE 'end %') FROM employers
  UNION ALL
  -- Each report has the version 1, and each correction the next one.
  SELECT 'reports', coalesce(sum(version), 0), (SELECT count(*) FROM request WHERE kind = 2) FROM reports
  UNION ALL
  SELECT 'bank lines', count(*), (SELECT coalesce(sum(a), 0) FROM request WHERE kind = 3) FROM bank
  UNION ALL
  SELECT 'claims', count(*), (SELECT count(*) FROM request WHERE kind = 4) FROM claims
  UNION ALL
  SELECT 'withdrawals', coalesce(sum(state = 1), 0), (SELECT count(*) FROM request WHERE verb LIKE 'withdraw%')
    FROM claims
  UNION ALL
  SELECT 'releases', coalesce(sum(state = 2), 0), (SELECT count(*) FROM request WHERE kind = 5) FROM claims
  UNION ALL
  SELECT 'lists', count(*), (SELECT count(*) FROM request WHERE kind = 6) FROM lists
  UNION ALL
  SELECT 'runs', count(*), (SELECT count(*) FROM request WHERE kind = 7) FROM runs
  UNION ALL
  SELECT 'reminders', count(*), (SELECT coalesce(sum(b), 0) FROM request WHERE kind = 7) FROM reminders)
WHERE kept IS NOT recomputed;

-- A firm sends for itself alone, and what a kind of answer doesn't use is 0.
SELECT 'request', caller, number, said
FROM (SELECT *, CAST(substr(command, 1, 60) AS TEXT) AS said FROM requests)
WHERE caller <> 0
    AND substr(said, 1, instr(said || ' ', ' ' || caller || ' ') - 1) NOT IN ('report', 'correct', 'claim', 'withdraw')
  OR kind NOT BETWEEN 1 AND 7 OR a <> 0 AND kind = 1 OR b <> 0 AND kind IN (1, 4) OR c <> 0 AND kind NOT IN (5, 6);

-- What an accepted request says of itself, with its answer, beside the row that it made: claims, releases with their
-- three parts, withdrawals, lists and runs, each with its day, firms, ends, and the lines that were given to firms.
SELECT 'said', CASE WHEN sum(side) > 0 THEN 'kept' ELSE 'requested' END, said, date(day * 86400, 'unixepoch')
FROM (
  SELECT 'claim ' || employer || ' ' || worker || ' ' || cents || ': ' || no AS said, made AS day, 1 AS side FROM claims
  UNION ALL
  SELECT 'release ' || no || ': ' || to_contributions || ' ' || to_interest || ' ' || paid, released, 1 FROM claims
    WHERE state = 2
  UNION ALL
  SELECT 'withdraw ' || employer || ' ' || no, NULL, 1 FROM claims WHERE state = 1
  UNION ALL
  SELECT 'payout: ' || no || ' ' || items || ' ' || total, day, 1 FROM lists
  UNION ALL
  SELECT 'remind: ' || no || ' ' || firms, day, 1 FROM runs
  UNION ALL
  SELECT 'employer ' || no || ' ' || printf('%d-%02d', 2000 + start / 12, start % 12 + 1) || ' ' || name, NULL, 1
    FROM employers
  UNION ALL
  SELECT 'end ' || no || ' ' || printf('%d-%02d', 2000 + last / 12, last % 12 + 1), NULL, 1 FROM employers
    WHERE last IS NOT NULL
  UNION ALL
  -- (a line may be assigned to the firm that it names, where that was registered later)
  SELECT 'assign ' || reference || ' ' || employer, NULL, 1 FROM bank
    WHERE employer IS NOT NULL AND (employer IS NOT named OR 'assign ' || reference || ' ' || employer IN (
      SELECT CAST(command AS TEXT) FROM requests WHERE CAST(substr(command, 1, 7) AS TEXT) = 'assign '))
  UNION ALL
  SELECT CAST(command AS TEXT) || CASE kind WHEN 4 THEN ': ' || a WHEN 5 THEN ': ' || a || ' ' || b || ' ' || c
      WHEN 6 THEN ': ' || a || ' ' || b || ' ' || c WHEN 7 THEN ': ' || a || ' ' || b ELSE '' END,
    CASE WHEN kind >= 4 THEN day END, -1
  FROM requests WHERE kind >= 4 OR kind = 1 AND CAST(substr(command, 1, 5) AS TEXT) <> 'rate ')
GROUP BY said, day HAVING sum(side) <> 0;

-- Added rates, since those of the rate file stand in no request.
SELECT 'rates', 'requested', CAST(command AS TEXT) FROM requests WHERE CAST(substr(command, 1, 5) AS TEXT) = 'rate '
EXCEPT
SELECT 'rates', 'requested', 'rate ' || printf('%d-%02d', 2000 + first / 12, first % 12 + 1) || ' ' || contribution
  || ' ' || report_day || ' ' || due_day || ' ' || interest || ' ' || entitlement FROM rates;

-- The versions of a report count from 1, and each has the contribution of its lines.
SELECT 'report', employer, printf('%d-%02d', 2000 + month / 12, month % 12 + 1), version, 'answered', cents,
  'recomputed', wanted
FROM (
  SELECT reported.*, row_number() OVER turn AS turn, lag(day) OVER turn AS last_day, (contribution * (
      -- (of each line the worker, then the gross amount)
      SELECT coalesce(sum(CAST(value AS INTEGER)), 0) FROM json_each('[' || replace(replace(json_quote(trim(lines)),
        ':', '","'), ' ', '","') || ']') WHERE key % 2 = 1) + 5000) / 10000 AS wanted
  FROM reported LEFT JOIN terms USING (month)
  WINDOW turn AS (PARTITION BY employer, month ORDER BY version))
WHERE version <> turn OR day < last_day OR cents IS NOT wanted OR lines IS NULL;

-- The lines of each latest report.
SELECT 'wages', employer, printf('%d-%02d', 2000 + month / 12, month % 12 + 1)
FROM reports LEFT JOIN reported USING (employer, month, version) LEFT JOIN wages USING (employer, month)
GROUP BY employer, month
HAVING count(worker) IS NOT length(lines) - length(replace(lines, ':', ''))
  OR sum(instr(lines, ' ' || worker || ':' || gross || ' ') = 0) > 0
UNION
SELECT 'wages', employer, printf('%d-%02d', 2000 + month / 12, month % 12 + 1)
FROM wages LEFT JOIN reports USING (employer, month) WHERE version IS NULL;

-- What the bank files say of each line.
SELECT 'line', CASE WHEN sum(side) > 0 THEN 'kept' ELSE 'sent' END, said
FROM (
  SELECT json_array(reference, date(value * 86400, 'unixepoch'), coalesce(named, '') || '', cents || '', purpose, note)
    AS said, 1 AS side FROM bank
  UNION ALL
  SELECT DISTINCT said, -1 FROM sent)
GROUP BY said HAVING sum(side) <> 0;

-- Of the lines of a file the new ones have the last serials.
INSERT INTO temp.came
SELECT reference, file, day, place, serial
FROM (
  SELECT file, day, new, min(place) AS place, reference, serial,
    row_number() OVER (PARTITION BY file ORDER BY serial DESC) AS back
  FROM sent JOIN bank USING (reference) GROUP BY file, reference)
WHERE back <= new;

-- Each record of a file is a new line or a repeat.
SELECT 'file', number, date(requests.day * 86400, 'unixepoch'), 'answered', a + b, 'recomputed', count(place)
FROM requests LEFT JOIN sent ON file = number
WHERE kind = 3 GROUP BY caller, number HAVING count(place) <> a + b;

-- Each line came once as a new one.
SELECT 'new', reference, 'files', count(file)
FROM bank LEFT JOIN came USING (reference) GROUP BY reference HAVING count(file) <> 1;

-- They follow each other in the order of their records.
SELECT 'serial', reference, 'kept', serial, 'recomputed', wanted
FROM (
  SELECT reference, serial,
    min(serial) OVER (PARTITION BY file) - 1 + row_number() OVER (PARTITION BY file ORDER BY place) AS wanted
  FROM came)
WHERE serial <> wanted;

-- Each line and each release has a serial of its own, and the serials rise with the days of the requests.
SELECT 'serial', what, 'kept', serial
FROM (
  SELECT what, serial, day, lag(serial) OVER turn AS last_serial, lag(day) OVER turn AS last_day,
    count(*) OVER (PARTITION BY what) AS times
  FROM (
    SELECT reference AS what, serial, day FROM came
    UNION
    SELECT ref, serial, day FROM credits WHERE ref LIKE 'set-off %')
  WINDOW turn AS (ORDER BY serial))
WHERE serial = last_serial OR day < last_day OR times > 1 OR serial NOT BETWEEN 1 AND (SELECT serial FROM meta);

INSERT OR IGNORE INTO temp.registered
SELECT CAST(substr(said, 10) AS INTEGER), day
FROM (SELECT day, CAST(command AS TEXT) AS said FROM requests WHERE kind = 1) WHERE said LIKE 'employer %';

-- A line that names a firm has it by its file where the firm was registered before, and where it was registered on a
-- later day, or never, by an assignment alone.
SELECT 'firm', reference, 'kept', bank.employer, 'named', named
FROM bank JOIN came USING (reference) LEFT JOIN registered ON registered.employer = named
WHERE since < day AND bank.employer IS NOT named OR since <= day IS NOT TRUE AND bank.employer = named
  AND 'assign ' || reference || ' ' || named NOT IN (SELECT CAST(command AS TEXT) FROM requests WHERE kind = 1);

SELECT 'run', no, 'kept', firms, 'recomputed', count(run)
FROM runs LEFT JOIN reminders ON run = no GROUP BY no HAVING firms <> count(run);

-- The level goes by the firm's last reminder, and there is a first missing month just where one is missing.
SELECT 'level', employer, run, 'kept', level, 'recomputed', wanted
FROM (
  SELECT reminders.*, CASE WHEN day - lag(day) OVER turn < 14 THEN 0
    WHEN day - lag(day) OVER turn <= 60 THEN min(lag(level) OVER turn + 1, 3) ELSE 1 END AS wanted
  FROM reminders LEFT JOIN runs ON no = run
  WINDOW turn AS (PARTITION BY employer ORDER BY run))
WHERE level <> wanted OR (missing = 0) <> (first IS NULL) OR missing + arrears + interest = 0;

-- The request by which each payment came to its firm, and its day: a file, an assignment or a release.
WITH given AS MATERIALIZED (
  SELECT day, substr(said, 8) AS said, CAST(substr(said, 8, instr(substr(said, 8), ' ') - 1) AS TEXT) AS ref
  FROM (SELECT day, CAST(command AS TEXT) AS said FROM requests WHERE kind = 1) WHERE said LIKE 'assign %')
INSERT INTO temp.paid
SELECT employer, purpose, credits.day, credits.serial, cents, coalesce(said, file, credits.serial),
  coalesce(given.day, came.day, credits.day)
FROM credits LEFT JOIN came ON reference = ref LEFT JOIN given USING (ref);

INSERT INTO temp.ended
SELECT CAST(substr(said, 5) AS INTEGER), day
FROM (SELECT day, CAST(command AS TEXT) AS said FROM requests WHERE kind = 1) WHERE said LIKE 'end %';

INSERT OR IGNORE INTO temp.withdrawn
SELECT CAST(substr(said, instr(said, ' ')) AS INTEGER), day
FROM (SELECT day, substr(CAST(command AS TEXT), 10) AS said FROM requests
  WHERE kind = 1 AND CAST(substr(command, 1, 9) AS TEXT) = 'withdraw ');

-- What the lines of each report earned the workers for whom something was claimed, until the report was corrected.
INSERT INTO temp.earned
SELECT employer, CAST(value AS INTEGER) AS worker, substr(value, instr(value, ':') + 1) * entitlement / 10000, day, till
FROM (SELECT *, lead(day) OVER (PARTITION BY employer, month ORDER BY version) AS till FROM reported)
JOIN terms USING (month), json_each('[' || replace(json_quote(trim(lines)), ' ', '","') || ']')
WHERE worker IN (SELECT worker FROM claims);

-- A claim is for a worker whom its firm has reported, and with those before it of no more than the worker has earned.
-- Where a report of the worker came or went on the day of the claim, it isn't looked at.
SELECT 'balance', employer, no, date(made * 86400, 'unixepoch'), 'claimed', cents + before, 'earned', total
FROM (
  SELECT *, (
      SELECT coalesce(sum(earlier.cents), 0) FROM claims AS earlier LEFT JOIN withdrawn USING (no)
      WHERE earlier.worker = claims.worker AND earlier.no < claims.no AND since <= claims.made IS NOT TRUE) AS before, (
      SELECT coalesce(sum(earned.cents), 0) FROM earned
      WHERE earned.worker = claims.worker AND since < made AND till < made IS NOT TRUE) AS total
  FROM claims) AS asked
WHERE NOT EXISTS (SELECT * FROM earned WHERE earned.worker = asked.worker AND made IN (since, till))
  AND (cents + before > total OR NOT EXISTS (
    SELECT * FROM earned
    WHERE earned.worker = asked.worker AND earned.employer = asked.employer AND since < made
      AND till < made IS NOT TRUE));

-- What a rule would have refused on its day: what is of a firm before its registration (11) or outside of its
-- membership (13), a report, rates and a value date ahead (14, 19, 22), an assignment before its line came (23), what
-- becomes of a claim before it was made (26), and a membership that begins before all rates (32).
SELECT 'rule', rule, what || iif(month IS NULL, '', printf(' %d-%02d', 2000 + month / 12, month % 12 + 1)),
  date(day * 86400, 'unixepoch')
FROM (
  SELECT 11 AS rule, 'report ' || employer AS what, month, day FROM reported JOIN registered USING (employer)
  WHERE day < since
  UNION ALL
  SELECT 11, 'claim ' || no, NULL, made FROM claims JOIN registered USING (employer) WHERE made < since
  UNION ALL
  SELECT 11, 'payment ' || serial, NULL, paid.since FROM paid JOIN registered USING (employer)
  WHERE paid.since < registered.since
  UNION ALL
  SELECT 11, 'end ' || employer, NULL, ended.since FROM ended JOIN registered USING (employer)
  WHERE ended.since < registered.since
  UNION ALL
  SELECT 13, 'report ' || employer, month, day FROM reported JOIN employers ON no = employer
  WHERE month NOT BETWEEN start AND coalesce(last, month)
  UNION ALL
  SELECT 14, 'report ' || employer, month, day FROM reported
  WHERE month > strftime('%Y', day * 86400, 'unixepoch') * 12 + strftime('%m', day * 86400, 'unixepoch') - 24001
  UNION ALL
  SELECT 19, said, NULL, day FROM (SELECT CAST(command AS TEXT) AS said, day FROM requests WHERE kind = 1)
  WHERE said LIKE 'rate %' AND substr(said, 6, 7) <= strftime('%Y-%m', day * 86400, 'unixepoch')
  UNION ALL
  SELECT 22, 'line ' || reference, NULL, day FROM bank JOIN came USING (reference) WHERE value > day
  UNION ALL
  SELECT 23, 'assign ' || reference, NULL, since FROM came JOIN paid USING (serial) WHERE since < came.day
  UNION ALL
  SELECT 26, 'release ' || no, NULL, released FROM claims WHERE released < made
  UNION ALL
  SELECT 26, 'withdraw ' || no, NULL, since FROM withdrawn JOIN claims USING (no) WHERE since < made
  UNION ALL
  SELECT 32, 'employer ' || no, NULL, NULL FROM employers WHERE start < (SELECT min(first) FROM rates));

-- How many requests of each day changed something of a firm. Their order within the day stands nowhere.
INSERT INTO temp.changed
SELECT employer, day, count(*)
FROM (
  SELECT employer, day FROM reported
  UNION ALL
  SELECT employer, since FROM (SELECT DISTINCT employer, since, request FROM paid)
  UNION ALL
  SELECT employer, since FROM ended)
GROUP BY employer, day;

-- A run reminds each firm of which a month is missing, or something is in arrears, but for those that were reminded
-- fewer than 14 days before. Not looked at are firms that owe interest alone, and those of which something was changed,
-- or which were registered, on the day of the run.
WITH unreminded AS (
  SELECT no AS run, runs.day, registered.employer
  FROM runs JOIN registered ON since < runs.day
  LEFT JOIN changed ON changed.employer = registered.employer AND changed.day = runs.day
  WHERE changes IS NULL AND NOT EXISTS (
    SELECT * FROM reminders JOIN runs AS sent ON sent.no = run
    WHERE reminders.employer = registered.employer AND run <= runs.no AND sent.day > runs.day - 14))
SELECT 'left out', unreminded.employer, run
FROM unreminded JOIN employers ON no = unreminded.employer LEFT JOIN ended ON ended.employer = no
WHERE EXISTS (
    SELECT * FROM terms
    WHERE month BETWEEN start AND CASE WHEN since < unreminded.day THEN last ELSE month END
      AND reported_by < unreminded.day AND NOT EXISTS (
        SELECT * FROM reported
        WHERE reported.employer = no AND reported.month = terms.month AND reported.day < unreminded.day))
  OR (
    SELECT sum(cents) FROM (
      SELECT cents, max(version) FROM reported JOIN terms USING (month)
      WHERE employer = no AND reported.day < unreminded.day AND terms.due < unreminded.day GROUP BY month))
  > (SELECT coalesce(sum(cents), 0) FROM paid WHERE employer = no AND purpose = 'C' AND since < unreminded.day);

-- What was known of each firm that was reminded, or whose claim was released: what was accepted on the days before and,
-- where one request of the run's own day changed something of the firm, perhaps that too. What several such requests
-- leave open, or one on the day of a release, isn't looked at.
WITH
asked AS (
  SELECT run, NULL AS claim, employer, day, coalesce(changes, 0) AS changes
  FROM reminders JOIN runs ON no = run LEFT JOIN changed USING (employer, day)
  UNION ALL
  -- (what the release itself sets off is one of the changes)
  SELECT NULL, no, claims.employer, released, coalesce(changes, 0) - (to_contributions + to_interest > 0)
  FROM claims LEFT JOIN changed ON changed.employer = claims.employer AND day = released WHERE state = 2)
INSERT INTO temp.stood (run, claim, employer, day, known)
SELECT run, claim, employer, day, day - 1 FROM asked WHERE changes = 0 OR changes = 1 AND claim IS NULL
UNION ALL
SELECT run, claim, employer, day, day FROM asked WHERE changes = 1 AND claim IS NULL;

-- Its contributions and its payments, each with the sum up to it. What is open is as if it were paid by a last payment
-- on the day of the run, which is as large as need be.
INSERT INTO temp.owed
SELECT id, month, cents, sum(cents) OVER (PARTITION BY id ORDER BY month)
FROM (
  SELECT id, month, cents, max(version) FROM stood JOIN reported USING (employer)
  WHERE reported.day <= known GROUP BY id, month)
WHERE cents > 0;

INSERT INTO temp.payment
SELECT id, day, is_last, cents, sum(cents) OVER (PARTITION BY id ORDER BY is_last, day, serial)
FROM (
  SELECT id, paid.day, 0 AS is_last, serial, cents FROM stood JOIN paid USING (employer)
  WHERE purpose = 'C' AND since <= known
  UNION ALL
  SELECT id, day, 1, 0, 1000000000000000 FROM stood);

WITH
missed AS (
  SELECT id, count(*) AS missing, min(month) AS first
  FROM stood JOIN employers ON no = employer
  LEFT JOIN ended USING (employer)
  JOIN terms ON month BETWEEN start AND CASE WHEN since <= known THEN last ELSE month END AND reported_by < stood.day
  WHERE NOT EXISTS (SELECT * FROM reported
    WHERE reported.employer = stood.employer AND reported.month = terms.month AND reported.day <= known)
  GROUP BY id),
-- What was paid, or is open, behind the due day.
late AS (
  SELECT owed.id, month, due, interest, day, is_last,
    min(owed.till, payment.till) - max(owed.till - owed.cents, payment.till - payment.cents) AS cents
  FROM owed JOIN terms USING (month) JOIN payment ON payment.id = owed.id AND day > due
    AND payment.till > owed.till - owed.cents AND owed.till > payment.till - payment.cents),
borne AS (
  SELECT id, sum(cents * is_last) AS arrears, sum(cents * (
    12 * (strftime('%Y', day * 86400, 'unixepoch') - strftime('%Y', due * 86400, 'unixepoch'))
    + strftime('%m', day * 86400, 'unixepoch') - strftime('%m', due * 86400, 'unixepoch')
    + (strftime('%d', day * 86400, 'unixepoch') > strftime('%d', due * 86400, 'unixepoch')))) * interest / 10000
    AS interest
  FROM late GROUP BY id, month)
INSERT INTO temp.figures
SELECT run, claim, employer, coalesce(missing, 0), first, coalesce(sum(arrears), 0),
  max(0, coalesce(sum(interest), 0) - coalesce((SELECT sum(cents) FROM paid
    WHERE paid.employer = stood.employer AND purpose = 'I' AND since <= known), 0))
FROM stood LEFT JOIN missed USING (id) LEFT JOIN borne USING (id)
GROUP BY id;

SELECT 'reminder', kept.employer, kept.run, 'kept', kept.missing, kept.first, kept.arrears, kept.interest,
  'recomputed', figures.missing, figures.first, figures.arrears, figures.interest
FROM reminders AS kept JOIN figures USING (run, employer)
GROUP BY run, employer
HAVING max((kept.missing, kept.first, kept.arrears, kept.interest)
  IS (figures.missing, figures.first, figures.arrears, figures.interest)) = 0;

-- A release sets off what is in arrears, first of contributions, and there is none while a month is missing.
SELECT 'set-off', claims.employer, no, 'kept', to_contributions, to_interest, 'recomputed', min(cents, arrears),
  min(cents - min(cents, arrears), interest), first
FROM claims JOIN figures ON claim = no
WHERE to_contributions <> min(cents, arrears) OR to_interest <> min(cents - to_contributions, interest) OR missing > 0;

-- What the store says of itself as a database, as where an index is of another book than its table.
SELECT 'database', integrity_check FROM pragma_integrity_check WHERE integrity_check <> 'ok';
