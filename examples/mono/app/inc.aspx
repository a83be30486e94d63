<%@ Page Language="C#" EnableSessionState="true" EnableViewState="false" %><%
// Adds one to the session's number. `ms` makes the page slow, `pad` its session large.
int n = Session["n"] == null ? 0 : (int)Session["n"];
if (Request["ms"] != null) System.Threading.Thread.Sleep(int.Parse(Request["ms"]));
Session["n"] = n + 1;
if (Request["pad"] != null) Session["pad"] = new string('p', int.Parse(Request["pad"]));
Response.ContentType = "text/plain";
Response.Write("n=" + (n + 1) + "\n");
%>
