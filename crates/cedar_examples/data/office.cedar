// Staff enter by day.
permit(principal in Group::"staff", action == Action::"enter", resource)
when { context.hour >= 8 && context.hour < 18 };

// Nobody enters a door that is locked.
forbid(principal, action == Action::"enter", resource)
when { resource has locked && resource.locked };
