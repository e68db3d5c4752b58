"""What quorumd-acceptance is made of: a plan, a probe of each host, evidence of a test, its judge, a record of the run and its page."""
