permit(principal, action == Action::"and", resource) when { false && 1 + "a" == 2 };
permit(principal, action == Action::"or", resource) when { true || context.missing };
permit(principal, action == Action::"if", resource) when { if context.on then true else context.missing };
permit(principal, action == Action::"left", resource) when { context.n && true };
permit(principal, action == Action::"unless", resource) unless { context.on };
permit(principal, action == Action::"two", resource) when { context.on } when { context.more };
permit(principal, action == Action::"not", resource) when { !context.on };
