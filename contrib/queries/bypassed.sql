-- What was done by bypassing a retention in GOVERNANCE: versions removed, and retentions ended earlier or changed. A
-- version whose retention was changed may have been removed later without a bypass: that is in the last column.
SELECT
    strftime('%Y-%m-%dT%H:%M:%SZ', removed, 'unixepoch') AS moment,
    cause_by AS caller,
    'removed' AS done,
    bucket,
    key,
    id AS version,
    size,
    '-' AS later
FROM entries
WHERE cause = 1
UNION ALL
SELECT
    strftime('%Y-%m-%dT%H:%M:%SZ', moment, 'unixepoch'),
    caller,
    'retention until ' || strftime('%Y-%m-%dT%H:%M:%SZ', until, 'unixepoch'),
    bucket,
    key,
    entries.id,
    size,
    coalesce('removed ' || strftime('%Y-%m-%dT%H:%M:%SZ', removed, 'unixepoch') || ' by ' || cause_by, 'held')
FROM settings
JOIN entries ON entries.id = settings.id
WHERE bypass
ORDER BY moment, version;
