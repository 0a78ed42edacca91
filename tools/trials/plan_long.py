"""tools/plan on 10,000 small clusters, all of them changed: what it says, and that its own part takes less than 20 seconds of one processor."""
import tempfile
import time

from planning import plans
from shared.running import output_of
from shared.urls import URLS
from trials.data.made import cluster, listener
from trials.plan_outages import Planner, found, replays, state

COUNT, MOST_SECONDS = 10000, 20


def run(check):
    hosts = [{'name': f'h{place}', 'domains': [f'h{place}.x'], 'routes': [{'match': {'prefix': '/'}, 'route': {'cluster': f'c{place}'}}]} for place in range(COUNT)]
    routed = {'@type': URLS['rds'], 'name': 'r', 'virtualHosts': hosts}
    texts = [state(cds=[cluster(f'c{place}', hosts=[place], connectTimeout=seconds) for place in range(COUNT)], lds=[listener('l', 80, routes='r')], rds=[routed])
             for seconds in ('1s', '2s')]
    spent = []

    def timed(*words):
        begun = time.process_time()
        found_of = (output_of if planner.program else replays)(*words)
        spent.append(time.process_time() - begun)
        return found_of

    with tempfile.TemporaryDirectory() as folder:
        planner = Planner(folder)
        kept, plans.output_of = plans.output_of, timed
        planner.stands_in = False
        try:
            begun = time.process_time()
            status, tree = planner.tree(*texts)
            seconds = time.process_time() - begun - sum(spent)
        finally:
            plans.output_of = kept
    check(status == 0 and len(found(tree, 'new')) == COUNT and tree['connections'] == 4000 and found(tree, 'unjudged', None, '6000 connections over the limit of 4000'),
          f'plan of {COUNT} clusters: {status} {tree["connections"]}')
    check(seconds < MOST_SECONDS, f'plan of {COUNT} clusters took {seconds:.1f} seconds beside the program')
    print(f'tools/plan: {COUNT} clusters onto {COUNT} took {seconds:.1f} seconds of a processor beside the program')
