<%@ Page Language="C#" EnableSessionState="true" %><%
Session.Abandon();
Response.ContentType = "text/plain";
Response.Write("abandoned\n");
%>
