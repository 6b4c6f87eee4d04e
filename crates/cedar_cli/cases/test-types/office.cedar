@id("from the office")
permit(principal, action, resource)
when { context.from.isInRange(ip("10.0.0.0/8")) };

@id("expired")
forbid(principal, action, resource)
when { principal.until <= context.now };
