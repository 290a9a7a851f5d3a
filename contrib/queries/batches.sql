-- Which batches were taken in, by bucket: how many lines were admitted, their bytes, and when the first and the last came.
SELECT
    intake.bucket AS bucket,
    -- Each put over S3 (docs/S3.md), and each by vaultdesk put --new, is a batch of its own: they are shown as one.
    CASE
        WHEN batch GLOB 's3-*' AND length(batch) = 43 THEN 's3-*'
        WHEN batch GLOB 'new-*' AND length(batch) = 44 THEN 'new-*'
        ELSE batch
    END AS batch,
    count(*) AS lines,
    sum(intake.size) AS bytes,
    strftime('%Y-%m-%dT%H:%M:%SZ', min(admitted), 'unixepoch') AS first,
    strftime('%Y-%m-%dT%H:%M:%SZ', max(admitted), 'unixepoch') AS last
FROM intake
JOIN entries USING (id)
GROUP BY 1, 2
ORDER BY 1, 2;
