permit(principal, action == Action::"ip", resource) when { ip(context.ip).isInRange(ip("10.0.0.0/8")) };
permit(principal, action == Action::"decimal", resource) when { decimal("1.5").lessThan(context.d) };
