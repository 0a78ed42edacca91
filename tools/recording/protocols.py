"""The two protocols of an aggregated stream, by the words that recordings have for them."""
DELTA, STATE_OF_THE_WORLD = 'incremental', 'state of the world'
DISCOVERY = 'envoy.service.discovery.v3.'
SERVICE = f'/{DISCOVERY}AggregatedDiscoveryService/'
METHODS = {f'{SERVICE}DeltaAggregatedResources': DELTA, f'{SERVICE}StreamAggregatedResources': STATE_OF_THE_WORLD}
REQUESTS = {DELTA: f'{DISCOVERY}DeltaDiscoveryRequest', STATE_OF_THE_WORLD: f'{DISCOVERY}DiscoveryRequest'}
COMMANDS = {DELTA: 'replay', STATE_OF_THE_WORLD: 'sotw'}
RESPONSES = {DELTA: f'{DISCOVERY}DeltaDiscoveryResponse', STATE_OF_THE_WORLD: f'{DISCOVERY}DiscoveryResponse'}
