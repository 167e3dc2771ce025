-- The tables of docs/TABLES.md, with geometry and exact areas, and the triggers that make them append-only.
CREATE SCHEMA reg;
CREATE SCHEMA policy;
CREATE SCHEMA access;

-- The party of each login of a person who uses SQL. The gateway's login is not in it.
CREATE TABLE access.login (login name PRIMARY KEY, party bigint NOT NULL);
-- The coordinate system, and the square that the tiles of zoom 0 cover: its north-west corner and its side, in metres.
CREATE TABLE access.setting (
  one boolean PRIMARY KEY DEFAULT true CHECK (one), srid int NOT NULL DEFAULT {{srid}}, tile_west float8 NOT NULL DEFAULT -131072,
  tile_north float8 NOT NULL DEFAULT 131072, tile_side float8 NOT NULL DEFAULT 262144 CHECK (tile_side > 0));
INSERT INTO access.setting DEFAULT VALUES;

-- One row: the mirror's stamp and next number; when changes were last applied, and when the mirror was last known to be up to date.
-- If `halted` is set, the mirror answers no request.
CREATE TABLE reg.state (
  one boolean PRIMARY KEY DEFAULT true CHECK (one), stamp bigint NOT NULL, next bigint NOT NULL,
  applied timestamptz NOT NULL DEFAULT clock_timestamp(), seen timestamptz NOT NULL DEFAULT clock_timestamp(), halted text);

-- Returns twice the area of an outline in square millimetres, exactly.
CREATE FUNCTION reg.doubled(outline text) RETURNS numeric LANGUAGE sql IMMUTABLE STRICT PARALLEL SAFE AS $$
  WITH corner AS (
    SELECT place, split_part(xy, ' ', 1)::numeric AS x, split_part(xy, ' ', 2)::numeric AS y
    FROM regexp_split_to_table(substring(outline FROM '\(\((.*)\)\)'), ', ?') WITH ORDINALITY AS part(xy, place))
  SELECT abs(sum(a.x * b.y - b.x * a.y)) FROM corner a JOIN corner b ON b.place = a.place + 1 $$;

CREATE TABLE reg.moments (stamp bigint PRIMARY KEY, next bigint NOT NULL);
CREATE TABLE reg.party (
  number bigint NOT NULL, name text NOT NULL, kind text NOT NULL, since bigint NOT NULL, until bigint NOT NULL,
  PRIMARY KEY (number, since), CHECK (since < until));
CREATE TABLE reg.role (
  party bigint NOT NULL, role text NOT NULL, since bigint NOT NULL, until bigint NOT NULL,
  PRIMARY KEY (party, role, since), CHECK (since < until));
CREATE TABLE reg.member (
  grp bigint NOT NULL, party bigint NOT NULL, num bigint NOT NULL, den bigint NOT NULL, since bigint NOT NULL, until bigint NOT NULL,
  PRIMARY KEY (grp, party, since), CHECK (since < until));
CREATE TABLE reg.unit (
  number bigint NOT NULL, name text NOT NULL, checked bigint NOT NULL, since bigint NOT NULL, until bigint NOT NULL,
  PRIMARY KEY (number, since), CHECK (since < until));
CREATE TABLE reg.parcel (
  number bigint NOT NULL, unit bigint NOT NULL, label text NOT NULL, outline text NOT NULL, source bigint NOT NULL,
  since bigint NOT NULL, until bigint NOT NULL,
  doubled numeric GENERATED ALWAYS AS (reg.doubled(outline)) STORED,
  geom public.geometry(Polygon, {{srid}})         -- metres; the outline has millimetres
    GENERATED ALWAYS AS (public.ST_Scale(public.ST_GeomFromText(outline, {{srid}}), 0.001, 0.001)) STORED,
  PRIMARY KEY (number, since), CHECK (since < until));
CREATE TABLE reg.rrr (
  number bigint NOT NULL, unit bigint NOT NULL, party bigint NOT NULL, class text NOT NULL, num bigint, den bigint, amount bigint,
  currency text, place bigint, words text, source bigint NOT NULL, since bigint NOT NULL, until bigint NOT NULL,
  PRIMARY KEY (number, since), CHECK (since < until));
CREATE TABLE reg.source (
  number bigint NOT NULL, kind text NOT NULL, title text NOT NULL, since bigint NOT NULL, until bigint NOT NULL,
  PRIMARY KEY (number, since), CHECK (since < until));
CREATE TABLE reg.mutation (
  number bigint NOT NULL, lodger bigint NOT NULL, reference text NOT NULL, source bigint NOT NULL, lodged bigint NOT NULL,
    act text NOT NULL,
  content text NOT NULL, state text NOT NULL, since bigint NOT NULL, until bigint NOT NULL,
  PRIMARY KEY (number, since), CHECK (since < until));
CREATE TABLE reg.names (
  mutation bigint NOT NULL, unit bigint NOT NULL, since bigint NOT NULL, until bigint NOT NULL,
  PRIMARY KEY (mutation, unit, since), CHECK (since < until));
CREATE TABLE reg.mandate (
  principal bigint NOT NULL, agent bigint NOT NULL, since bigint NOT NULL, until bigint NOT NULL,
  PRIMARY KEY (principal, agent, since), CHECK (since < until));

-- The register's own indexes.
CREATE INDEX rrr_party ON reg.rrr (party);
CREATE INDEX rrr_unit ON reg.rrr (unit);
CREATE INDEX parcel_unit ON reg.parcel (unit);
CREATE INDEX member_party ON reg.member (party);
CREATE INDEX names_unit ON reg.names (unit);
CREATE INDEX mutation_lodger ON reg.mutation (lodger, reference);
CREATE INDEX role_role ON reg.role (role);
CREATE INDEX mandate_agent ON reg.mandate (agent);
-- And those of the queries.
CREATE INDEX parcel_geom ON reg.parcel USING gist (geom);
CREATE INDEX party_name ON reg.party USING gin (name public.gin_trgm_ops);
CREATE INDEX unit_name ON reg.unit USING gin (name public.gin_trgm_ops);
CREATE INDEX parcel_label ON reg.parcel USING gin (label public.gin_trgm_ops);
CREATE INDEX party_order ON reg.party (name, number);
CREATE INDEX unit_order ON reg.unit (name, number);
CREATE INDEX parcel_order ON reg.parcel (label, number);
CREATE INDEX mutation_undecided ON reg.mutation (number) WHERE state = 'lodged' AND until = 4102444800000;

-- A new row begins after the mirror's stamp. A row that is current may end after it. Nothing else of a row ever changes.
CREATE FUNCTION reg.append_only() RETURNS trigger LANGUAGE plpgsql SECURITY DEFINER SET search_path = pg_catalog, pg_temp AS $$
DECLARE mirrored bigint := (SELECT stamp FROM reg.state); BEGIN
  IF TG_OP = 'INSERT' THEN
    IF new.since <= mirrored THEN RAISE 'a row of % begins at %, not after the stamp %', TG_TABLE_NAME, new.since, mirrored; END IF;
    RETURN new;
  END IF;
  IF old.until <> 4102444800000 OR new.until <= mirrored THEN RAISE 'a past row of % cannot change', TG_TABLE_NAME; END IF;
  RETURN new;
END $$;
CREATE FUNCTION reg.append_moment() RETURNS trigger LANGUAGE plpgsql SECURITY DEFINER SET search_path = pg_catalog, pg_temp AS $$ BEGIN
  IF new.stamp <= (SELECT stamp FROM reg.state) THEN RAISE 'moment % is not after the mirror''s stamp', new.stamp; END IF;
  RETURN new;
END $$;
-- The stamp and the next number never decrease, and a mirror that was stopped stays stopped.
CREATE FUNCTION reg.append_state() RETURNS trigger LANGUAGE plpgsql AS $$ BEGIN
  IF new.stamp < old.stamp OR new.next < old.next THEN RAISE 'the stamp and the next number cannot decrease'; END IF;
  IF old.halted IS NOT NULL THEN RAISE 'the mirror was stopped: %', old.halted; END IF;
  RETURN new;
END $$;
CREATE FUNCTION reg.never() RETURNS trigger LANGUAGE plpgsql AS $$ BEGIN
  RAISE '% of % is never allowed', TG_OP, TG_TABLE_NAME; END $$;
CREATE TRIGGER append_only BEFORE INSERT ON reg.moments FOR EACH ROW EXECUTE FUNCTION reg.append_moment();
CREATE TRIGGER append_only BEFORE UPDATE ON reg.state FOR EACH ROW EXECUTE FUNCTION reg.append_state();
DO $$ DECLARE name text; other text; BEGIN
  FOREACH name IN ARRAY ARRAY['party', 'role', 'member', 'unit', 'parcel', 'rrr', 'source', 'mutation', 'names', 'mandate'] LOOP
    EXECUTE format('CREATE TRIGGER append_only BEFORE INSERT OR UPDATE ON reg.%I FOR EACH ROW EXECUTE FUNCTION reg.append_only()', name);
    SELECT string_agg(quote_ident(attname), ', ') INTO other FROM pg_attribute
      WHERE attrelid = format('reg.%I', name)::regclass AND attnum > 0 AND attgenerated = '' AND attname <> 'until';
    EXECUTE format('CREATE TRIGGER only_until BEFORE UPDATE OF %s ON reg.%I FOR EACH STATEMENT EXECUTE FUNCTION reg.never()', other, name);
    EXECUTE format('GRANT UPDATE (until) ON reg.%I TO land_feed', name);
  END LOOP;
  FOREACH name IN ARRAY ARRAY['state', 'moments', 'party', 'role', 'member', 'unit', 'parcel', 'rrr', 'source', 'mutation', 'names',
    'mandate'] LOOP
    EXECUTE format('CREATE TRIGGER keep_rows BEFORE DELETE OR TRUNCATE ON reg.%I FOR EACH STATEMENT EXECUTE FUNCTION reg.never()', name);
  END LOOP;
END $$;

CREATE FUNCTION reg.refresh_statistics()
  RETURNS void LANGUAGE plpgsql SECURITY DEFINER SET search_path = pg_catalog, public, pg_temp AS $$ BEGIN
  ANALYZE reg.moments, reg.party, reg.role, reg.member, reg.unit, reg.parcel, reg.rrr, reg.source, reg.mutation, reg.names, reg.mandate;
END $$;
REVOKE ALL ON ALL FUNCTIONS IN SCHEMA reg FROM PUBLIC;
GRANT USAGE ON SCHEMA reg TO land_feed;
GRANT SELECT, INSERT ON ALL TABLES IN SCHEMA reg TO land_feed;
GRANT UPDATE (stamp, next, applied, seen, halted) ON reg.state TO land_feed;
GRANT EXECUTE ON FUNCTION reg.refresh_statistics, reg.doubled TO land_feed;
