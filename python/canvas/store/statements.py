"""All that the database is asked. Each statement is a transaction."""

TAKE = """
    UPDATE document SET epoch = epoch + 1, holder = %(host)s, held = clock_timestamp(), wanted = NULL
    WHERE name = %(name)s AND (holder IS NULL OR holder = %(host)s
        OR NOT EXISTS (SELECT FROM host WHERE host.name = document.holder AND host.lease > clock_timestamp()))
    RETURNING id, epoch, generation, turn"""
MAKE = "INSERT INTO document (name) VALUES (%(name)s) ON CONFLICT DO NOTHING"
WANT = """
    UPDATE document SET wanted = %(host)s
    WHERE name = %(name)s AND holder <> %(host)s AND wanted IS DISTINCT FROM %(host)s"""
WANT_NO_MORE = "UPDATE document SET wanted = NULL WHERE name = %(name)s AND wanted = %(host)s"
HOLDER = "SELECT holder FROM document WHERE name = %(name)s"
RELEASE = "UPDATE document SET holder = NULL, wanted = NULL WHERE id = %(id)s AND epoch = %(epoch)s"
RELEASE_NAME = "UPDATE document SET holder = NULL, wanted = NULL WHERE name = %(name)s AND holder = %(host)s"
RELEASE_ALL = "UPDATE document SET holder = NULL, wanted = NULL WHERE holder = %(host)s"
BEGIN = """
    WITH mine AS (UPDATE document SET generation = %(generation)s + 1, turn = 0
        WHERE id = %(id)s AND epoch = %(epoch)s AND generation = %(generation)s RETURNING id, generation)
    INSERT INTO opening (document, generation, bytes) SELECT id, generation, %(opening)b FROM mine RETURNING 1"""
TURN = """
    WITH mine AS (UPDATE document SET turn = turn + 1
        WHERE id = %(id)s AND epoch = %(epoch)s AND generation = %(generation)s AND turn = %(turn)s
        RETURNING id, generation, turn)
    INSERT INTO turn (document, generation, number, places, bytes, length)
    SELECT id, generation, turn, %(places)b::bigint[], %(bytes)b::bytea[], %(length)s FROM mine RETURNING 1"""
# (That it changes the row, if to the same, has its commit wait for the standby; so what it shows will not be taken back
# by a failure of the leader.)
STATE = "UPDATE document SET turn = turn WHERE id = %(id)s AND epoch = %(epoch)s RETURNING generation, turn"
OPENING = "SELECT bytes FROM opening WHERE document = %(id)s AND generation = %(generation)s"
TURNS = """
    SELECT number, places, bytes, length FROM turn
    WHERE document = %(id)s AND generation = %(generation)s AND number > %(after)s ORDER BY number"""
LAST_LARGE = """
    SELECT coalesce(max(number), 0) FROM turn
    WHERE document = %(id)s AND generation = %(generation)s AND length >= %(large)s"""
JOIN = """
    WITH mine AS (UPDATE document SET turn = turn WHERE id = %(id)s AND epoch = %(epoch)s RETURNING id),
        joined AS (DELETE FROM turn USING mine
            WHERE document = mine.id AND generation = %(generation)s AND number >= %(first)s AND number < %(last)s)
    UPDATE turn SET places = %(places)b::bigint[], bytes = %(bytes)b::bytea[], length = %(length)s
    FROM mine WHERE document = mine.id AND generation = %(generation)s AND number = %(last)s"""
RENEW = """
    WITH before AS (SELECT lease FROM host WHERE name = %(host)s)
    INSERT INTO host (name, lease) VALUES (%(host)s, clock_timestamp() + make_interval(secs => %(lease)s))
    ON CONFLICT (name) DO UPDATE SET lease = EXCLUDED.lease
    RETURNING coalesce((SELECT lease < clock_timestamp() FROM before), true)"""
WANTED = """
    SELECT name, wanted FROM document
    WHERE holder = %(host)s AND wanted IS NOT NULL AND held < clock_timestamp() - make_interval(secs => %(stay)s)"""
EPOCHS = "SELECT name, epoch, coalesce(holder, 'nobody') FROM document WHERE name = ANY(%(names)s)"
NAMES = "SELECT name FROM document ORDER BY name"
LIST = """
    SELECT document.name, generation, turn, coalesce(host.name, '-')
    FROM document LEFT JOIN host ON host.name = holder AND lease > clock_timestamp()
    ORDER BY document.name"""
REMOVE = """
    WITH gone AS (DELETE FROM document
            WHERE name = %s AND NOT EXISTS (SELECT FROM host WHERE host.name = holder AND lease > clock_timestamp())
            RETURNING id),
        turns AS (DELETE FROM turn USING gone WHERE document = gone.id)
    SELECT count(*) FROM gone"""
CREATE = "INSERT INTO document (name) VALUES (%s) ON CONFLICT DO NOTHING RETURNING 1"
CREATE_OF = """
    INSERT INTO document (name, generation, turn) VALUES (%s, %s, %s) ON CONFLICT DO NOTHING RETURNING id"""
PUT_OPENING = "INSERT INTO opening (document, generation, bytes) VALUES (%s, %s, %b)"
PUT_TURN = """
    INSERT INTO turn (document, generation, number, places, bytes, length)
    VALUES (%s, %s, %s, %b::bigint[], %b::bytea[], %s)"""
BEGUN = "SELECT id, generation FROM document WHERE name = %s AND generation > 0"
