with Ada.Finalization; with Ada.Text_IO;
procedure Main is
   type Page is record Words : Integer := 0; end record;
   type Sheet is access Page;
   type Letter is new Ada.Finalization.Controlled with record Front : Sheet; end record;
   overriding procedure Adjust (Object : in out Letter);
   type Stamp is new Ada.Finalization.Controlled with record Face : Sheet; end record;
   overriding procedure Adjust (Object : in out Stamp);
   type Envelope;
   type Link is access Envelope;
   type Chain is new Ada.Finalization.Controlled with record Next : Link; end record;
   overriding procedure Adjust (Object : in out Chain);
   type Envelope is record Inside : Letter; Outside : Stamp; Behind : Chain; end record;
   overriding procedure Adjust (Object : in out Chain) is
   begin
      Object.Next := null;
   end Adjust;
   overriding procedure Adjust (Object : in out Letter) is
      Before : Link;
   begin
      if Before = null then
         Object.Front := new Page'(Words => Object.Front.Words);
      else
         Object.Front := null;
      end if;
   exception
      when others => Object.Front := null;
   end Adjust;
   overriding procedure Adjust (Object : in out Stamp) is
   begin
      Object.Face := new Page'(Words => Object.Face.Words + 1);
   exception
      when others => Object.Face := null;
   end Adjust;
   Top  : Link := new Envelope;
   Sent : Letter;
   Paid : Stamp;
begin
   Top.Behind.Next := new Envelope;
   Sent.Front := new Page'(Words => 7);
   Paid.Face := new Page'(Words => 20);
   Top.Behind.Next.Inside := Sent;
   Top.Behind.Next.Outside := Paid;
   Top.all := Top.Behind.Next.all;
   Ada.Text_IO.Put_Line (Integer'Image (Top.Inside.Front.Words));
   Ada.Text_IO.Put_Line (Integer'Image (Top.Outside.Face.Words));
end Main;
