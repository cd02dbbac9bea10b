-- Where canvas-store keeps documents: `canvas-store schema | psql DATABASE`, once, as the user that the agents are.

-- A machine that serves documents. Its lease is by this database's clock, and its agent renews it each second.
CREATE TABLE host (
    name text PRIMARY KEY,
    lease timestamptz NOT NULL
);

CREATE TABLE document (
    id bigint GENERATED ALWAYS AS IDENTITY PRIMARY KEY,
    name text NOT NULL UNIQUE CHECK (name ~ '^[a-z0-9][a-z0-9-]{0,62}$'),
    epoch bigint NOT NULL DEFAULT 0,        -- rises with each holder; only a change that names it is made
    holder text,                            -- the host that serves it, as long as its lease is not over
    held timestamptz,                       -- since when
    wanted text,                            -- the host that would have it
    generation integer NOT NULL DEFAULT 0,  -- 0: it has no opening yet
    turn bigint NOT NULL DEFAULT 0          -- how many turns of the generation are kept
) WITH (fillfactor = 50);
CREATE INDEX document_holder ON document (holder) WHERE holder IS NOT NULL;

-- The saved document that a generation begins with.
CREATE TABLE opening (
    document bigint NOT NULL REFERENCES document ON DELETE CASCADE,
    generation integer NOT NULL,
    bytes bytea NOT NULL,
    PRIMARY KEY (document, generation)
);

-- What was kept together: bytes of the journal, each at its place, in their order; no bytes (NULL) cut it to that length. Turns are joined later:
-- a row stands for those since the row before it. (There is no foreign key, which would cost a lock each time.)
CREATE TABLE turn (
    document bigint NOT NULL,
    generation integer NOT NULL,
    number bigint NOT NULL,
    places bigint[] NOT NULL,
    bytes bytea[] NOT NULL,
    length integer NOT NULL,
    PRIMARY KEY (document, generation, number)
);
