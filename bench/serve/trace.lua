-- Each request is the connected trace from the first joint.
wrk.method = "POST"
wrk.path = "/queries"
wrk.body = '{"ask":"trace","type":"connected","starts":[[1,1]]}'
