# From a log of bodies posted to /api/v2/alerts, as lines {"receivedAt": MOMENT, "body": [ALERT..]}: a line for each post.
{at: .receivedAt, alerts: [.body[] | {labels, annotations, startsAt, endsAt}]}
