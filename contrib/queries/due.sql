-- What the lifecycle rules will do: the changes that a run of each bucket would make at the moment :at, if nothing else is
-- changed until then. Left out, :at is the end of next month. A date alone is its midnight; all in UTC.
--   marked: a delete marker hides the key's content, which stays for the time being
--   removed: a version, or a marker that isn't on top, is removed for good
--   lone: a delete marker is removed, below which nothing is left
-- `due` is the moment from which the rule does it. `gone` is the moment from which the version is removed for good: of one
-- that is marked, the earliest, where it is marked as soon as it is due; `-` where no rule removes it, or a hold is on.
-- What a retention or a hold guards at :at isn't removed, and so isn't among the changes.
WITH
given(at) AS (SELECT :at || iif(:at GLOB '????-??-??', 'T00:00:00Z', '')),
-- What is neither a date nor a moment ends the query with an error; CROSS JOIN has SQLite look at it first.
asked(t) AS MATERIALIZED (
    SELECT CASE
        WHEN :at IS NULL THEN CAST(strftime('%s', 'now', 'start of month', '+2 months') AS INTEGER)
        WHEN at = strftime('%Y-%m-%dT%H:%M:%SZ', strftime('%s', at), 'unixepoch') THEN CAST(strftime('%s', at) AS INTEGER)
        ELSE json_extract(
            '{}',
            ':at is neither a date as 2025-06-10 nor a moment as 2025-06-10T12:00:00Z: ' || :at
                || iif(typeof(:at) = 'text', '', ', a number, as of a date that is not in two kinds of quotes')
        )
    END
    FROM given
),
held AS (
    SELECT
        entries.id, bucket, key, marker, size, admitted,
        coalesce(hold OR (mode > 0 AND until > t), 0) AS locked,
        coalesce(hold, 0) AS hold,
        coalesce(until, 0) AS ends,
        count(*) OVER above AS newer,
        first_value(admitted) OVER above AS since
    FROM asked
    CROSS JOIN entries ON removed IS NULL
    LEFT JOIN settings ON settings.id = entries.id
        AND settings.n = (SELECT max(n) FROM settings WHERE settings.id = entries.id)
    WINDOW above AS (
        PARTITION BY bucket, key ORDER BY entries.id ROWS BETWEEN 1 FOLLOWING AND UNBOUNDED FOLLOWING
    )
),
-- each rule that is for an entry, with the midnights that its numbers of days end at
fitting AS (
    SELECT
        held.*, n, rules.id AS rule, lone, nc_days, coalesce(nc_keep, 0) AS nc_keep,
        (admitted + days * 86400 + 86399) / 86400 * 86400 AS days_end,
        (since + nc_days * 86400 + 86399) / 86400 * 86400 AS nc_end
    FROM held
    JOIN rules ON rules.bucket = held.bucket
    WHERE enabled
        AND substr(key, 1, length(prefix)) = prefix
        AND (larger IS NULL OR size > larger)
        AND (smaller IS NULL OR size < smaller)
),
-- of several rules the first is the cause: min() takes the other columns from its row
marked AS (
    SELECT bucket, key, id, marker, size, min(n), rule, days_end AS due
    FROM fitting, asked
    WHERE newer = 0 AND NOT marker AND days_end <= t
    GROUP BY id
),
-- what is marked is noncurrent from then on, and removed once a rule for it allows that: no mark is earlier than the
-- vault's last change
hidden AS (
    SELECT id, min(max((max(due, last) + nc_days * 86400 + 86399) / 86400 * 86400, ends)) AS gone
    FROM meta, fitting
    JOIN marked USING (id)
    WHERE nc_keep = 0 AND NOT hold AND nc_days IS NOT NULL
    GROUP BY id
),
removed AS (
    SELECT bucket, key, id, marker, size, min(n), rule, max(nc_end, ends) AS due
    FROM fitting, asked
    WHERE newer > 0 AND NOT locked AND nc_end <= t
        -- a marker that this run puts on top counts as newer
        AND nc_keep <= newer - 1 + ((bucket, key) IN (SELECT bucket, key FROM marked))
    GROUP BY id
),
lone AS (
    SELECT bucket, key, id, marker, size, min(n), rule, iif(lone, admitted, days_end) AS due
    FROM fitting, asked
    WHERE newer = 0 AND marker AND (lone OR days_end <= t)
        AND NOT EXISTS (
            SELECT 1 FROM held AS other
            WHERE other.bucket = fitting.bucket AND other.key = fitting.key AND other.id <> fitting.id
                AND other.id NOT IN (SELECT id FROM removed)
        )
    GROUP BY id
),
changes AS (
    SELECT 'marked' AS change, marked.*, gone FROM marked LEFT JOIN hidden USING (id)
    UNION ALL SELECT 'removed', *, due FROM removed
    UNION ALL SELECT 'lone', *, due FROM lone
)
SELECT
    strftime('%Y-%m-%dT%H:%M:%SZ', due, 'unixepoch') AS due,
    change,
    bucket,
    key,
    id AS version,
    iif(marker, 'marker', 'version') AS kind,
    size,
    rule,
    coalesce(strftime('%Y-%m-%dT%H:%M:%SZ', gone, 'unixepoch'), '-') AS gone
FROM changes
ORDER BY changes.due, bucket, key, id;
