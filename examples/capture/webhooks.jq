# From a log of bodies that a webhook got, as lines {"receivedAt": MOMENT, "body": {"alerts": [ALERT..]}}: a line for each body. The end of an alert that
# fires is 0001-01-01T00:00:00Z there, and counts as not given.
{at: .receivedAt, alerts: [.body.alerts[] | {labels, annotations, startsAt, endsAt}]}
