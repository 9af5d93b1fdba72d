-- The rows after 25 messages of the story `held-block`: the second number has failed at 15, is withdrawn from all queues,
-- and is the block's open port.
BEGIN;
INSERT INTO block VALUES (2025337, 'BBBB', NULL);
INSERT INTO version VALUES (1, 2025337001, 'BBBB', 'BBBB', 0, 2025330000, NULL, NULL, NULL, 'active', 'none', 5, 1, NULL, 0, 1, NULL, NULL, 2025337001, -2);
INSERT INTO version VALUES (2, 2025337002, 'BBBB', 'BBBB', 0, 2025330000, NULL, NULL, NULL, 'failed', 'none', 15, 1, NULL, 0, 1, NULL, NULL, -3, 2025337002);
INSERT INTO clock VALUES (0, 20, 3, 60, 60, 30, 120, 1000, 60, 60, 500, 15);
COMMIT;
