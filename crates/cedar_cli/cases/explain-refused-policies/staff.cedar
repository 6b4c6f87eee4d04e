// staff.cedar
@id("staff by day")
permit(principal in Group::"staff", action == Action::"read", resource)
when { context.hour = 18 };
