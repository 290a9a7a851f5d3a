-- All that ever happened to each entry, by rising id: the text that `vaultctl events` prints, byte for byte, where sqlite3
-- prints in list mode and without headers, as it does by default. With a moment :before it is what was
-- before that moment. A date alone is its midnight; all in UTC.
WITH
given(name, at, kind) AS (
    VALUES (':before', :before || iif(:before GLOB '????-??-??', 'T00:00:00Z', ''), typeof(:before))
),
-- What is neither a date nor a moment ends the query with an error; CROSS JOIN has SQLite look at it first.
asked(before) AS MATERIALIZED (
    SELECT CASE
        WHEN at IS NULL THEN NULL
        WHEN at = strftime('%Y-%m-%dT%H:%M:%SZ', strftime('%s', at), 'unixepoch') THEN CAST(strftime('%s', at) AS INTEGER)
        ELSE json_extract(
            '{}',
            name || ' is neither a date as 2025-06-10 nor a moment as 2025-06-10T12:00:00Z: ' || at
                || iif(kind = 'text', '', ', a number, as of a date that is not in two kinds of quotes')
        )
    END
    FROM given
),
-- `turn` and n put the events of an entry in their order
events(id, turn, n, moment, event, by, lock, why, department, move) AS (
    SELECT
        entries.id, 1, 0, admitted, 'admitted', iif(by_rule, 'rule ', '') || admitted_by, ',,,', '', coalesce(dept, ''), ''
    FROM entries
    LEFT JOIN tenures ON tenures.id = entries.id AND tenures.n = 0
    UNION ALL
    SELECT
        id, 2, n, moment, 'locked', caller,
        CASE mode
            WHEN 0 THEN ','
            ELSE iif(mode = 1, 'GOVERNANCE,', 'COMPLIANCE,') || strftime('%Y-%m-%dT%H:%M:%SZ', until, 'unixepoch')
        END
            || iif(hold, ',ON', ',OFF') || iif(bypass, ',true', ',false'),
        '', '', ''
    FROM settings
    UNION ALL
    SELECT id, 3, n, moment, 'moved', '', ',,,', '', dept, n
    FROM tenures
    WHERE n > 0
    UNION ALL
    SELECT
        id, 4, 0, entries.removed, 'removed', cause_by, ',,,',
        CASE cause WHEN 0 THEN 'request' WHEN 1 THEN 'bypass' ELSE 'rule' END, '', ''
    FROM entries
    WHERE entries.removed IS NOT NULL
),
-- A cell with a comma or a quote stands in quotes, and its own quotes are doubled. Keys and the ids of rules may have
-- some; the end of a line, which would need quotes too, stands in no name.
lines(id, turn, n, line) AS (
    SELECT
        id, turn, n,
        id || ',' || event || ',' || strftime('%Y-%m-%dT%H:%M:%SZ', moment, 'unixepoch')
            || ',' || iif(instr(by, ',') OR instr(by, '"'), '"' || replace(by, '"', '""') || '"', by)
            || ',' || bucket
            || ',' || iif(instr(key, ',') OR instr(key, '"'), '"' || replace(key, '"', '""') || '"', key)
            || ',' || iif(marker, 'marker', 'version') || ',' || size || ',' || coalesce(lower(hex(digest)), '') || ',' || lock
            || ',' || why || ',' || department || ',' || move
    FROM asked
    CROSS JOIN events ON before IS NULL OR events.moment < before
    JOIN entries USING (id)
    UNION ALL
    SELECT
        0, 0, 0,
        'version,event,moment,by,bucket,key,kind,size,sha256,mode,until,hold,bypass,cause,department,move'
)
SELECT line FROM lines ORDER BY id, turn, n;
