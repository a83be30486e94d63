<%@ Application Language="C#" %>
<script runat="server">
// Mono keeps a session's own timeout only where it is set here.
void Session_Start(object sender, EventArgs e) {
  if (Request["minutes"] != null) Session.Timeout = int.Parse(Request["minutes"]);
}
</script>
