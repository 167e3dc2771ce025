-- The roles of PostgreSQL that a mirror needs. They are not roles of the register.
-- land_owner    owns everything and cannot log in
-- land_feed     appends what the register has done, and nothing else
-- land_gateway  calls the functions of the schema gate, and is trusted to name the caller
-- land_reader   may read the views of the register's roles; for logins of people who use SQL
DO $$ DECLARE word text; BEGIN
  FOREACH word IN ARRAY ARRAY['land_owner NOLOGIN', 'land_reader NOLOGIN', 'land_feed LOGIN', 'land_gateway LOGIN'] LOOP
    IF NOT EXISTS (SELECT 1 FROM pg_roles WHERE rolname = split_part(word, ' ', 1)) THEN EXECUTE 'CREATE ROLE ' || word; END IF;
  END LOOP;
END $$;
