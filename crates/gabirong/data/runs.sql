INSERT INTO runs (name, depth_cm, remark, at)
VALUES (@{run}, @{depth}, 'groomed by @{driver}, @@ @{speed} km/h', 2026);
